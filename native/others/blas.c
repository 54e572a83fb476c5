/* Multiplies matrices, which OpenBLAS does in several threads. */
#include <cblas.h>
#include <stdio.h>
#include <stdlib.h>

enum { SIZE = 160, TIMES = 3 };

int main(void)
{
    double *a = malloc(SIZE * SIZE * sizeof *a), *b = malloc(SIZE * SIZE * sizeof *b), *c = calloc(SIZE * SIZE, sizeof *c);
    int it;
    for (it = 0; it < SIZE * SIZE; it++) {
        a[it] = it % 7;
        b[it] = it % 5;
    }
    for (it = 0; it < TIMES; it++)
        cblas_dgemm(CblasRowMajor, CblasNoTrans, CblasNoTrans, SIZE, SIZE, SIZE, 1, a, SIZE, b, SIZE, 1, c, SIZE);
    printf("%g\n", c[5]);
    return 0;
}

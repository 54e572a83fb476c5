// A relaxation over a grid: each thread takes every fourth row, and counts what changes.
#include <pthread.h>
#include <stdint.h>

enum { THREADS = 4, WIDTH = 21, HEIGHT = 32, STEPS = 8 };

static int32_t grid[2][HEIGHT][WIDTH];
static int32_t changed[THREADS];
static pthread_barrier_t barrier;

static int32_t new_value(int from, int y, int x) {
    return (grid[from][y][x] * 4 + grid[from][y - 1][x] + grid[from][y + 1][x] + grid[from][y][x - 1] + grid[from][y][x + 1]) / 8;
}

static void *work(void *argument) {
    int me = (int)(intptr_t)argument;
    for (int step = 0; step < STEPS; step++) {
        int from = step & 1, to = !from;
        for (int y = 1 + me; y < HEIGHT - 1; y += THREADS) {
            for (int x = 1; x < WIDTH - 1; x++) grid[to][y][x] = new_value(from, y, x);
            for (int x = 1; x < WIDTH - 1; x++)
                if (grid[to][y][x] != grid[from][y][x]) changed[me]++;
        }
        pthread_barrier_wait(&barrier);
    }
    return 0;
}

int main(void) {
    pthread_t threads[THREADS];
    for (int y = 0; y < HEIGHT; y++)
        for (int x = 0; x < WIDTH; x++) grid[0][y][x] = grid[1][y][x] = (x * 31 + y * 17) % 97 * 1000;
    pthread_barrier_init(&barrier, 0, THREADS);
    for (int i = 0; i < THREADS; i++) pthread_create(&threads[i], 0, work, (void *)(intptr_t)i);
    for (int i = 0; i < THREADS; i++) pthread_join(threads[i], 0);
    return 0;
}

// No file is a terminal or another device: ioctl answers -1, with ENOTTY for the files 0 to 2 and EBADF for any other.
#ifndef PREDATOR_SYS_IOCTL_H
#define PREDATOR_SYS_IOCTL_H

#ifdef __cplusplus
extern "C" {
#endif

#define TIOCGWINSZ 0x5413
#define FIONREAD 0x541B
#define FIONBIO 0x5421

struct winsize {
    unsigned short ws_row, ws_col, ws_xpixel, ws_ypixel;
};

int ioctl(int file, unsigned long request, ...);

#ifdef __cplusplus
}
#endif

#endif

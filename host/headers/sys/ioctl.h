/* For a compiler that comes with no headers: what the host programs use of this one, with the number of Linux. */
#ifndef SYS_IOCTL_H
#define SYS_IOCTL_H
struct winsize {
    unsigned short ws_row, ws_col, unused[2];
};
#define TIOCGWINSZ 0x5413
int ioctl(int file, unsigned long request, ...);
#endif

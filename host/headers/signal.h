/* For a compiler that comes with no headers: what the host programs use of this one, as the C library lays it out on x86-64. */
#ifndef SIGNAL_H
#define SIGNAL_H
typedef int sig_atomic_t;
typedef struct {
    unsigned long bits[16];
} sigset_t;
struct sigaction {
    void (*sa_handler)(int number);
    sigset_t sa_mask;
    int sa_flags;
    void (*sa_restorer)(void);
};
_Static_assert(sizeof(struct sigaction) == 152, "the C library reads 152 bytes");
#define SIGKILL 9
#define SIGCHLD 17
#define SIGCONT 18
#define SIGSTOP 19
#define SIGTSTP 20
#define SIGTTIN 21
#define SIGTTOU 22
#define SIGURG 23
#define SIGWINCH 28
#define SIGRTMAX 64
#define SIG_DFL ((void (*)(int))0)
#define SIG_BLOCK 0
#define SIG_SETMASK 2
int sigaction(int number, const struct sigaction *new_one, struct sigaction *old_one);
int sigprocmask(int how, const sigset_t *set, sigset_t *old_set);
int sigfillset(sigset_t *set);
int raise(int number);
#endif

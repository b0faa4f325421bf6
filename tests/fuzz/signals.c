/* Linked in where x86-64 is emulated, with --wrap=sigaction. qemu 8.2 enters a signal's handler with a stack that is eight bytes off what
 * x86-64 promises. libFuzzer's handlers rely on the promise, and end the run before they have said what happened and kept the input. So
 * each is called through one that aligns the stack first. Where the emulator keeps the promise, that changes nothing. */
#define _GNU_SOURCE
#include <signal.h>
#include <stddef.h>

typedef void handler(int number, siginfo_t *about, void *context);

static handler *meant[NSIG];

int __real_sigaction(int number, const struct sigaction *action, struct sigaction *before);

__attribute__((force_align_arg_pointer)) static void aligned(int number, siginfo_t *about, void *context)
{
    meant[number](number, about, context);
}

int __wrap_sigaction(int number, const struct sigaction *action, struct sigaction *before)
{
    if (action == NULL || !(action->sa_flags & SA_SIGINFO) || number <= 0 || number >= NSIG) {
        return __real_sigaction(number, action, before);
    }
    struct sigaction changed = *action;
    changed.sa_sigaction = aligned;
    meant[number] = action->sa_sigaction;
    return __real_sigaction(number, &changed, before);
}

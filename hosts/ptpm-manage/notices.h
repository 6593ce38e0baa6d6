/* What ptpm-manage says on standard error: a line for each fault, and its progress if that is a terminal. And the status with which it ends. */
#pragma once

/* The status with which the program ends. Those from LEFT_OPEN to HAS_CHANGES are of `plan` and what follows it. */
enum status {
    ANSWERED = 0, REFUSED = 1, NOT_ASKED = 2, NOT_ANSWERED = 3, NOT_WRITTEN = 4, NOT_AS_ASKED = 5, LEFT_OPEN = 6, IN_PART = 7, HAS_CHANGES = 8,
    BY_SIGNAL = 128
};

/* A line after the program's name. */
__attribute__((format(printf, 1, 2))) void complain(const char *format, ...);

/* The same, and the program ends with status 2: nothing was asked or sent. Usage is what the user asks, which is to be asked otherwise, and
   storage a file that can't be read or written. */
enum refused { BY_ANYTHING, BY_USAGE, BY_STORAGE, REFUSALS };
_Noreturn __attribute__((format(printf, 2, 3))) void end_refused(enum refused by, const char *format, ...);
#define refuse(...) end_refused(BY_ANYTHING, __VA_ARGS__)
#define refuse_usage(...) end_refused(BY_USAGE, __VA_ARGS__)
#define refuse_storage(...) end_refused(BY_STORAGE, __VA_ARGS__)

/* From now on the program ends with this status after `refuse`, and with NOT_WRITTEN after `refuse_storage`. */
void refuse_as(enum status status);

/* From now on what is refused is passed on there too. */
void refuse_also(void (*say)(enum status status, const char *why));

/* From now on this program is a plugin of Nagios: what it refuses is said on standard output too, and it ends with status 3. */
void be_plugin(void);

/* From now on no progress is shown. */
void be_quiet(void);

/* Shows a line of progress instead of the one before it, if standard error is a terminal. What has no room there is cut off. */
__attribute__((format(printf, 1, 2))) void show_progress(const char *format, ...);

/* Shows a line too, and each line of progress after it begins with this one, until another one is shown so. An empty text ends that. */
__attribute__((format(printf, 1, 2))) void head_progress(const char *format, ...);

/* Says what progress was made, if standard error is not a terminal: a line after the program's name. */
__attribute__((format(printf, 1, 2))) void log_progress(const char *format, ...);

/* Takes that line away. It comes before what is printed otherwise. */
void clear_progress(void);

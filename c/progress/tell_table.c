/* What ranks report to a launcher that makes a table of many runs. */
#include "launcher/launcher.h"
#include "play/play.h"
#include "progress/progress.h"
#include <stdarg.h>
#include <unistd.h>

/* A line for --every-stop. */
void um_tell_table(const char *format, ...) {
    static pthread_mutex_t lock = PTHREAD_MUTEX_INITIALIZER;
    char line[160];
    va_list words;
    if (um_options.report < 0 && !um_options.seeds && !um_options.limit) return;
    va_start(words, format);
    int length = vsnprintf(line, sizeof line, format, words);
    va_end(words);
    if (um_note_report(line, (size_t)length) || um_note_past(line, (size_t)length)) return;
    pthread_mutex_lock(&lock);
    if (write(um_options.report, line, (size_t)length) != length) um_options.report = -1;
    pthread_mutex_unlock(&lock);
}

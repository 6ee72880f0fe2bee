/* A program that answers a try by chance: soak SEED TASK INDEX DATE TRY. The same words have the same answer each time. With the
 * words soak SEED it prints the table of these answers, of the tries TASK INDEX DATE TRY that stand on standard input. */
#include <signal.h>
#include <stdint.h>
#include <stdio.h>
#include <string.h>
#include <unistd.h>

enum { LONGEST = 512 };

struct answer {
    int code;       /* the exit code, or 0 where a signal ends it */
    int signal;     /* the signal that ends it, or 0 */
    int is_endless; /* whether it prints more than is read */
    char line[64];  /* what it prints */
    unsigned microseconds;
};

/* A number that all words go into (FNV-1a, and the last step of splitmix64). */
static uint64_t number_of(const char *words[], int count) {
    uint64_t number = 14695981039346656037u;
    for (int word = 0; word < count; word++) {
        for (const char *byte = words[word]; ; byte++) {
            number = (number ^ (unsigned char)*byte) * 1099511628211u;
            if (!*byte) break;
        }
    }
    number = (number ^ (number >> 30)) * 0xbf58476d1ce4e5b9u;
    number = (number ^ (number >> 27)) * 0x94d049bb133111ebu;
    return number ^ (number >> 31);
}

static struct answer answer_of(const char *words[5]) {
    static const int signals[] = { SIGKILL, SIGTERM, SIGSEGV, SIGABRT };
    uint64_t number = number_of(words, 5);
    unsigned chance = number % 1000, other = (number >> 10) % 1000;
    struct answer answer = { .microseconds = (number >> 20) % 5000 };
    if (chance < 100) {
        answer.code = 1 + (int)other % 98;
    } else if (chance < 130) {
        answer.code = 99;
    } else if (chance < 170) {
        answer.signal = signals[other % 4];
    } else if (chance < 172) {
        answer.is_endless = 1;
    } else if (words[1][0] == 's') {
        /* a source: a list of no items to five */
        static const char *lists[] = { "[]", "[1]", "[1,null]", "[1,\"b\",3]", "[4,3,2,1]", "[[],0,\"-\",true,5]" };
        strcpy(answer.line, lists[other % 6]);
    } else if (chance < 600) {
        snprintf(answer.line, sizeof answer.line, "%u", other);
    }
    return answer;
}

static int act(struct answer answer) {
    static char much[1 << 16];
    usleep(answer.microseconds);
    fputs(answer.line, stdout);
    fflush(stdout);
    while (answer.is_endless && write(1, much, sizeof much) > 0) { }
    if (answer.signal) raise(answer.signal);
    return answer.code;
}

static int print_table(const char *seed) {
    char task[LONGEST], index[LONGEST], date[LONGEST], try_number[LONGEST];
    const char *before = "[";
    while (scanf("%511s %511s %511s %511s", task, index, date, try_number) == 4) {
        const char *words[] = { seed, task, index, date, try_number };
        struct answer answer = answer_of(words);
        /* in a table a program that a signal ends, or that prints too much, is one that failed */
        int status = answer.signal || answer.is_endless ? 1 : answer.code;
        if (status == 0 && !answer.line[0]) continue;
        printf("%s{\"task\":\"%s\",\"index\":%s,\"run\":\"%s\",\"try\":%s,\"status\":%d,\"out\":\"", before, task, index, date, try_number, status);
        for (const char *byte = answer.line; *byte; byte++) {
            if (*byte == '"') putchar('\\');
            putchar(*byte);
        }
        printf("\"}");
        before = ",\n";
    }
    printf("%s]\n", before[0] == '[' ? "[" : "");
    return 0;
}

int main(int count, char *arguments[]) {
    const char **words = (const char **)arguments + 1;
    if (count == 2) return print_table(words[0]);
    if (count < 6) return 2;
    /* what else is handed over is for the report alone */
    return act(answer_of(words));
}

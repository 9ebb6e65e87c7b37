/* The four disk calls of the journal's append (a record of 1 KiB and its sync, its gate and its sync), made by threads with
 * a file each: what `bench/journal.py` measures the journal against.
 *
 *     cc -O2 -pthread append_pattern.c -o append_pattern && ./append_pattern MODE THREADS RECORDS
 *
 * MODE says how room is made ahead of the end, 8 MiB at a time: 0 none, 1 a longer file, 2 posix_fallocate, 3 zeros that
 * are written ahead. The files of std in Rattle can have 0, 1 and 3. */
#define _GNU_SOURCE
#include <fcntl.h>
#include <pthread.h>
#include <stdio.h>
#include <stdlib.h>
#include <string.h>
#include <unistd.h>

#define STEP (8 << 20)
#define PIECE (1 << 16)

static int mode, records;

static void make_room(int file, off_t from) {
    static const char zeros[PIECE];
    if (mode == 1)
        ftruncate(file, from + STEP);
    if (mode == 2)
        posix_fallocate(file, from, STEP);
    for (off_t at = from; mode == 3 && at < from + STEP; at += PIECE)
        pwrite(file, zeros, PIECE, at);
}

static void *append(void *number) {
    char name[32], record[1029], gate = (char)0xA5;
    off_t end = 16, room = 0;
    snprintf(name, sizeof name, "pattern%ld", (long)number);
    unlink(name);
    int file = open(name, O_RDWR | O_CREAT, 0600);
    memset(record, 'x', sizeof record);
    record[1028] = 0;
    for (int i = 0; i < records; i++) {
        if (mode && end + 2000 > room) {
            make_room(file, room);
            room += STEP;
        }
        pwrite(file, record, sizeof record, end + 1);
        fdatasync(file);
        pwrite(file, &gate, 1, end);
        fdatasync(file);
        end += sizeof record;
    }
    close(file);
    unlink(name);
    return 0;
}

int main(int count, char **words) {
    if (count < 4)
        return 2;
    mode = atoi(words[1]);
    long threads = atoi(words[2]);
    records = atoi(words[3]);
    pthread_t started[64];
    for (long i = 0; i < threads && i < 64; i++)
        pthread_create(started + i, 0, append, (void *)i);
    for (long i = 0; i < threads && i < 64; i++)
        pthread_join(started[i], 0);
    return 0;
}

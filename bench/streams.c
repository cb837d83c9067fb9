// Makes send streams for the benchmarks, measures a program, and does in plain C what composing one stream costs.
//
//   streams full MIB                a stream on standard output: files of 1 MiB in WRITEs of 49,152 bytes
//   streams chain FOLDER PARTS FILES CHANGES   a full stream of FILES files of 4,096 bytes, and PARTS snapshots that write CHANGES each
//   streams folder FOLDER TO        a full stream of half of the plain files of FOLDER in TO/first, a snapshot with the others
//                                   in TO/second, and what the two are composed into in TO/both
//   streams copy FILE               reads FILE twice, sums each byte three times and writes it to standard output
//   streams measure OUT WORD..      runs the program with standard output in OUT: its seconds and its peak memory in KiB
#define _GNU_SOURCE
#include <dirent.h>
#include <fcntl.h>
#include <stdint.h>
#include <stdio.h>
#include <stdlib.h>
#include <string.h>
#include <sys/resource.h>
#include <sys/wait.h>
#include <time.h>
#include <unistd.h>

enum { PIECE = 49152, MEBIBYTE = 1 << 20, BUFFER = 1 << 16 };

static uint32_t tables[16][256];

static void make_tables(void) {
    for (uint32_t n = 0; n < 256; n++) {
        uint32_t sum = n;
        for (int bit = 0; bit < 8; bit++) sum = sum >> 1 ^ (sum & 1 ? 0x82f63b78u : 0);
        tables[0][n] = sum;
    }
    for (int k = 1; k < 16; k++)
        for (int n = 0; n < 256; n++) tables[k][n] = tables[k - 1][n] >> 8 ^ tables[0][tables[k - 1][n] & 255];
}

static uint32_t sum_of(uint32_t sum, const uint8_t *bytes, size_t count) {
    for (; count >= 16; bytes += 16, count -= 16) {
        uint64_t low, high;
        memcpy(&low, bytes, 8);
        memcpy(&high, bytes + 8, 8);
        low ^= sum;
        sum = 0;
#pragma GCC unroll 8
        for (int k = 0; k < 8; k++)
            sum ^= tables[15 - k][low >> 8 * k & 255] ^ tables[7 - k][high >> 8 * k & 255];
    }
    while (count--) sum = sum >> 8 ^ tables[0][(sum ^ *bytes++) & 255];
    return sum;
}

static void stop(const char *why) {
    perror(why);
    exit(1);
}

static void put(FILE *to, const void *bytes, size_t count) {
    if (fwrite(bytes, 1, count, to) != count) stop("write");
}

// A frame that grows: ten bytes of header, then the attributes.
static uint8_t frame[10 + 2 * PIECE];
static size_t filled;

static void begin(int command) {
    filled = 10;
    memset(frame, 0, 10);
    frame[4] = command;
}

static void attribute(int kind, const void *bytes, size_t count) {
    uint8_t head[4] = {kind, 0, count & 255, count >> 8};
    memcpy(frame + filled, head, 4);
    memcpy(frame + filled + 4, bytes, count);
    filled += 4 + count;
}

static void number(int kind, uint64_t n) { attribute(kind, &n, 8); }

static void name(int kind, const char *text) { attribute(kind, text, strlen(text)); }

static void finish(FILE *to) {
    uint32_t len = filled - 10;
    memcpy(frame, &len, 4);
    uint32_t sum = sum_of(0, frame, filled);
    memcpy(frame + 6, &sum, 4);
    put(to, frame, filled);
}

static void uuid(int kind, uint32_t part) {
    uint8_t bytes[16] = {1};
    memcpy(bytes + 12, &part, 4);
    attribute(kind, bytes, 16);
}

// The head of a part, as a snapshot of the one before it or not.
static void head_as(FILE *to, uint32_t part, int snapshot) {
    char text[32];
    put(to, "btrfs-stream\0\1\0\0\0", 17);
    begin(snapshot ? 2 : 1);
    uuid(1, part);
    number(2, part + 1);
    snprintf(text, sizeof text, "part%u", part);
    name(15, text);
    if (snapshot) {
        uuid(20, part - 1);
        number(21, part);
    }
    finish(to);
}

// The head of a part of a chain, of which the first is no snapshot.
static void head(FILE *to, uint32_t part) { head_as(to, part, part > 0); }

static void make_file(FILE *to, const char *path) {
    begin(3);
    name(15, path);
    finish(to);
}

static void write_data(FILE *to, const char *path, uint64_t at, const uint8_t *bytes, size_t count) {
    begin(15);
    name(15, path);
    number(18, at);
    attribute(19, bytes, count);
    finish(to);
}

static void end(FILE *to) {
    begin(21);
    finish(to);
}

static void fill(uint8_t *bytes, size_t count, uint64_t seed) {
    seed = seed * 0x9e3779b97f4a7c15u + 1;
    for (size_t i = 0; i < count; i += 8) {
        seed ^= seed << 13;
        seed ^= seed >> 7;
        seed ^= seed << 17;
        memcpy(bytes + i, &seed, 8);
    }
}

static void full(long mebibytes) {
    static uint8_t bytes[MEBIBYTE];
    char path[32];
    head(stdout, 0);
    for (long file = 0; file < mebibytes; file++) {
        snprintf(path, sizeof path, "file%ld", file);
        fill(bytes, MEBIBYTE, file);
        make_file(stdout, path);
        for (size_t at = 0; at < MEBIBYTE; at += PIECE)
            write_data(stdout, path, at, bytes + at, MEBIBYTE - at < PIECE ? MEBIBYTE - at : PIECE);
    }
    end(stdout);
}

static FILE *open_in(const char *folder, const char *name, const char *mode) {
    char path[4096];
    snprintf(path, sizeof path, "%s/%s", folder, name);
    FILE *file = fopen(path, mode);
    if (!file) stop(path);
    return file;
}

static FILE *open_part(const char *folder, long part) {
    char text[32];
    snprintf(text, sizeof text, "%06ld", part);
    return open_in(folder, text, "wb");
}

static void chain(const char *folder, long parts, long files, long changes) {
    uint8_t bytes[4096];
    char path[32];
    for (long part = 0; part <= parts; part++) {
        FILE *to = open_part(folder, part);
        head(to, part);
        long first = part * changes;
        for (long place = part ? first : 0; place < (part ? first + changes : files); place++) {
            long file = place % files;
            snprintf(path, sizeof path, "file%ld", file);
            fill(bytes, sizeof bytes, part * files + file);
            if (!part) make_file(to, path);
            write_data(to, path, 0, bytes, sizeof bytes);
        }
        end(to);
        if (fclose(to)) stop("close");
    }
}

// Each day writes the one file of so many MiB anew.
static void days(const char *folder, long days, long mebibytes) {
    static uint8_t bytes[MEBIBYTE];
    for (long day = 0; day < days; day++) {
        FILE *to = open_part(folder, day);
        head(to, day);
        if (!day) make_file(to, "image");
        for (long place = 0; place < mebibytes; place++) {
            fill(bytes, MEBIBYTE, day * mebibytes + place);
            for (size_t at = 0; at < MEBIBYTE; at += PIECE)
                write_data(to, "image", (uint64_t)place * MEBIBYTE + at, bytes + at, MEBIBYTE - at < PIECE ? MEBIBYTE - at : PIECE);
        }
        end(to);
        if (fclose(to)) stop("close");
    }
}

static int is_file(const struct dirent *entry) { return entry->d_type == DT_REG; }

// Files of a folder, each made and then written piece by piece.
static void copy_files(FILE *to, const char *folder, struct dirent **files, int count) {
    static uint8_t bytes[PIECE];
    for (int file = 0; file < count; file++) {
        const char *path = files[file]->d_name;
        FILE *from = open_in(folder, path, "rb");
        size_t took;
        make_file(to, path);
        for (uint64_t at = 0; (took = fread(bytes, 1, PIECE, from)) > 0; at += took) write_data(to, path, at, bytes, took);
        if (ferror(from) || fclose(from)) stop(path);
    }
}

static void folder(const char *from, const char *into) {
    struct dirent **files;
    int count = scandir(from, &files, is_file, alphasort);
    if (count < 0) stop(from);
    FILE *first = open_in(into, "first", "wb"), *second = open_in(into, "second", "wb"), *both = open_in(into, "both", "wb");
    head(first, 0);
    copy_files(first, from, files, count / 2);
    end(first);
    head(second, 1);
    copy_files(second, from, files + count / 2, count - count / 2);
    end(second);
    head_as(both, 1, 0);
    copy_files(both, from, files, count);
    end(both);
    if (fclose(first) || fclose(second) || fclose(both)) stop(into);
}

static void copy(const char *path) {
    static uint8_t bytes[BUFFER];
    uint32_t sums[3] = {0, 0, 0};
    for (int pass = 0; pass < 2; pass++) {
        int file = open(path, O_RDONLY);
        if (file < 0) stop(path);
        ssize_t count;
        while ((count = read(file, bytes, BUFFER)) > 0) {
            sums[pass] = sum_of(sums[pass], bytes, count);
            if (!pass) continue;
            sums[2] = sum_of(sums[2], bytes, count);
            for (ssize_t done = 0, took; done < count; done += took)
                if ((took = write(1, bytes + done, count - done)) <= 0) stop("write");
        }
        if (count < 0) stop(path);
        close(file);
    }
    fprintf(stderr, "%08x %08x %08x\n", sums[0], sums[1], sums[2]);
}

static int measure(const char *out, char **words) {
    struct timespec from, to;
    struct rusage used;
    int status;
    clock_gettime(CLOCK_MONOTONIC, &from);
    pid_t child = fork();
    if (child < 0) stop("fork");
    if (!child) {
        int file = open(out, O_WRONLY | O_CREAT | O_TRUNC, 0666);
        if (file < 0 || dup2(file, 1) < 0) stop(out);
        execv(words[0], words);
        stop(words[0]);
    }
    if (wait4(child, &status, 0, &used) < 0) stop("wait");
    clock_gettime(CLOCK_MONOTONIC, &to);
    printf("%.3f %ld\n", to.tv_sec - from.tv_sec + (to.tv_nsec - from.tv_nsec) / 1e9, used.ru_maxrss);
    return WIFEXITED(status) ? WEXITSTATUS(status) : 1;
}

int main(int count, char **words) {
    make_tables();
    if (count == 3 && !strcmp(words[1], "full"))
        full(atol(words[2]));
    else if (count == 6 && !strcmp(words[1], "chain"))
        chain(words[2], atol(words[3]), atol(words[4]), atol(words[5]));
    else if (count == 5 && !strcmp(words[1], "days"))
        days(words[2], atol(words[3]), atol(words[4]));
    else if (count == 4 && !strcmp(words[1], "folder"))
        folder(words[2], words[3]);
    else if (count == 3 && !strcmp(words[1], "copy"))
        copy(words[2]);
    else if (count >= 4 && !strcmp(words[1], "measure"))
        return measure(words[2], words + 3);
    else
        return 2;
    return fflush(stdout) ? 1 : 0;
}

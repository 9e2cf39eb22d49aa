/* SPDX-License-Identifier: MIT */
/*
 * Maps the POSIX names that the programs use to functions for Windows, as git's compat/mingw does. shared/system.h
 * includes this file.
 *
 * The functions take and return paths and environment variables in UTF-8, and convert them to UTF-16 for Windows. Paths
 * may be longer than 260 characters. Files are read and written unchanged: line ends are not converted, and Ctrl-Z does
 * not end a file.
 */
#ifndef WINDOWS_POSIX_H
#define WINDOWS_POSIX_H

#include <dirent.h>
#include <fcntl.h>
#include <getopt.h>
#include <io.h>
#include <stdbool.h>
#include <stdint.h>
#include <stdio.h>
#include <stdlib.h>
#include <string.h>
#include <sys/stat.h>
#include <sys/types.h>
#include <unistd.h>

#define O_CLOEXEC _O_NOINHERIT

/* Identifies a user, by a digest of the security identifier. */
typedef uint64_t uid_t;

/* The fields of struct stat that the programs use. `st_dev` and `st_ino` identify the file. Times are only compared.
 * They are in units of 100 nanoseconds since 1601, and `st_ctime` is the time of creation. */
struct windows_stat {
    uint64_t st_dev, st_ino, st_size, st_nlink, st_mtime, st_ctime;
    uid_t st_uid;
    unsigned st_mode;
};

/* These functions set errno as in POSIX. `windows_open` opens files only for reading. `windows_mkdir` ignores the mode,
 * and gives access to the directory only to the user and the system. */
int windows_open(const char *file, int flags);
int windows_stat(const char *file, struct windows_stat *status);
int windows_fstat(int fd, struct windows_stat *status);
int windows_mkdir(const char *path, int mode);
int64_t windows_lseek(int fd, int64_t offset, int from);
ssize_t windows_read(int fd, void *buffer, size_t size);
ssize_t windows_write(int fd, const void *bytes, size_t len);

/* A directory that is being read. Names are in UTF-8. Reading fails if a name is not Unicode. */
struct windows_directory;
struct windows_entry {
    char d_name[3 * 260];
};
struct windows_directory *windows_opendir(const char *path);
struct windows_entry *windows_readdir(struct windows_directory *directory);
int windows_closedir(struct windows_directory *directory);
int windows_chdir(const char *path);

/* Returns the number of processors. */
long windows_sysconf(int name);

/* Returns true only for a console. The function of the C library returns true for NUL as well. */
int windows_isatty(int fd);

char *windows_getenv(const char *name);

/* Returns the text of an errno, including the values below. */
const char *windows_strerror(int error);

/* Writes the whole text in one piece, because a console cannot show a character whose bytes come in two pieces. */
int windows_fprintf(FILE *to, const char *format, ...) __attribute__((format(gnu_printf, 2, 3)));

/* Values of errno for the reasons why only Windows rejects a file. */
enum { NAME_HAS_COLON = 20000, NAME_IS_RESERVED, NAME_END_IS_DROPPED, FILE_IS_IN_USE, LINK_HAS_NO_TARGET };

#define AT_FDCWD (-100)
#define _SC_NPROCESSORS_ONLN 84

#define DIR struct windows_directory
#define dirent windows_entry
#define opendir windows_opendir
#define readdir windows_readdir
#define closedir windows_closedir
#define chdir windows_chdir
#define sysconf windows_sysconf
#undef stat
#undef fstat
#undef lseek
#define stat windows_stat
#define fstat windows_fstat
#define open windows_open
#define mkdir windows_mkdir
#define lseek windows_lseek
#define read windows_read
#define write windows_write
#define isatty windows_isatty
#define getenv windows_getenv
#define strerror windows_strerror
#define fprintf windows_fprintf

#endif

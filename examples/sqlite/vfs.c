/* A loadable extension of SQLite: the VFS `volume`, which keeps databases and rollback journals as files in a volume.
 *
 *     file:app.db?vfs=volume&cluster=PATH[&timeout=MILLISECONDS]
 *
 * The first connection of a process takes the volume over. All connections of the process share that writer; SQLite's
 * locks between them are in memory. Once another process takes the volume over, each call returns SQLITE_IOERR. */
#include <sqlite3ext.h>
SQLITE_EXTENSION_INIT1

#include "locks.h"
#include "store.h"
#include "testing.h"

#include <pthread.h>
#include <stdlib.h>
#include <string.h>

enum {
    PATH_MOST = 512,
    TIMEOUT = 30000,
    VOLUME_FILES = SQLITE_OPEN_MAIN_DB | SQLITE_OPEN_MAIN_JOURNAL | SQLITE_OPEN_SUPER_JOURNAL,
};

/* A volume that connections of this process use. */
struct shared {
    struct shared *next;
    char *cluster;
    struct store *store;
    struct file_locks locks[FILES];
    int users;
};

struct vfs_file {
    sqlite3_file base;
    struct shared *shared;
    int number;            /* of the file in the volume */
    int level;             /* of its lock */
    struct vfs_file *next; /* the next open database file */
    const char *name;      /* of a database file, with which its journals' names begin; NULL for a journal */
};

static pthread_mutex_t mutex = PTHREAD_MUTEX_INITIALIZER; /* guards the variables below and each call of a store */
static struct shared *all_shared;
static struct vfs_file *main_files;
static sqlite3_vfs *system_vfs;
static sqlite3_vfs volume_vfs;

static int code_of(enum client_result result, int otherwise) {
    switch (result) {
    case CLIENT_OK:
        return SQLITE_OK;
    case CLIENT_FULL:
        return SQLITE_FULL;
    case CLIENT_NO_MEMORY:
        return SQLITE_IOERR_NOMEM;
    case CLIENT_FENCED:
        return SQLITE_IOERR;
    default:
        return otherwise;
    }
}

static int vfs_read(sqlite3_file *base, void *out, int length, sqlite3_int64 offset) {
    struct vfs_file *file = (struct vfs_file *)base;
    size_t got = 0;
    pthread_mutex_lock(&mutex);
    enum client_result result = store_read(file->shared->store, file->number, (uint64_t)offset, out, (size_t)length,
                                           &got);
    pthread_mutex_unlock(&mutex);
    if (result != CLIENT_OK)
        return code_of(result, SQLITE_IOERR_READ);
    memset((uint8_t *)out + got, 0, (size_t)length - got);
    return got == (size_t)length ? SQLITE_OK : SQLITE_IOERR_SHORT_READ;
}

static int vfs_write(sqlite3_file *base, const void *bytes, int length, sqlite3_int64 offset) {
    struct vfs_file *file = (struct vfs_file *)base;
    pthread_mutex_lock(&mutex);
    enum client_result result = store_write(file->shared->store, file->number, (uint64_t)offset, bytes,
                                            (size_t)length);
    pthread_mutex_unlock(&mutex);
    return code_of(result, SQLITE_IOERR_WRITE);
}

static int vfs_truncate(sqlite3_file *base, sqlite3_int64 size) {
    struct vfs_file *file = (struct vfs_file *)base;
    pthread_mutex_lock(&mutex);
    enum client_result result = store_truncate(file->shared->store, file->number, (uint64_t)size);
    pthread_mutex_unlock(&mutex);
    return code_of(result, SQLITE_IOERR_TRUNCATE);
}

static int vfs_sync(sqlite3_file *base, int flags) {
    struct vfs_file *file = (struct vfs_file *)base;
    (void)flags;
    pthread_mutex_lock(&mutex);
    enum client_result result = store_sync(file->shared->store);
    pthread_mutex_unlock(&mutex);
    return code_of(result, SQLITE_IOERR_FSYNC);
}

static int vfs_size(sqlite3_file *base, sqlite3_int64 *size) {
    struct vfs_file *file = (struct vfs_file *)base;
    pthread_mutex_lock(&mutex);
    *size = (sqlite3_int64)store_size(file->shared->store, file->number);
    pthread_mutex_unlock(&mutex);
    return SQLITE_OK;
}

/* Refuses a reserved lock, which begins a write transaction, if the volume is full. A rollback needs no such lock. */
static int vfs_lock(sqlite3_file *base, int level) {
    struct vfs_file *file = (struct vfs_file *)base;
    int code = SQLITE_OK;
    pthread_mutex_lock(&mutex);
    if (level == SQLITE_LOCK_RESERVED && file->level < level && store_is_full(file->shared->store))
        code = SQLITE_FULL;
    else if (!locks_raise(&file->shared->locks[file->number], file, &file->level, level))
        code = SQLITE_BUSY;
    pthread_mutex_unlock(&mutex);
    return code;
}

static int vfs_unlock(sqlite3_file *base, int level) {
    struct vfs_file *file = (struct vfs_file *)base;
    pthread_mutex_lock(&mutex);
    locks_lower(&file->shared->locks[file->number], file, &file->level, level);
    pthread_mutex_unlock(&mutex);
    return SQLITE_OK;
}

static int vfs_check_reserved(sqlite3_file *base, int *out) {
    struct vfs_file *file = (struct vfs_file *)base;
    pthread_mutex_lock(&mutex);
    *out = locks_reserved(&file->shared->locks[file->number]);
    pthread_mutex_unlock(&mutex);
    return SQLITE_OK;
}

/* Refuses the journal mode WAL. SQLite would allow it with an exclusive lock, and then no other connection could open
 * the database. */
static int vfs_control(sqlite3_file *base, int what, void *argument) {
    char **words = argument; /* of a pragma: result, name, argument or NULL */
    (void)base;
    if (what != SQLITE_FCNTL_PRAGMA || sqlite3_stricmp(words[1], "journal_mode") != 0 || !words[2]
        || sqlite3_stricmp(words[2], "wal") != 0)
        return SQLITE_NOTFOUND;
    words[0] = sqlite3_mprintf("a volume has rollback journals alone");
    return SQLITE_ERROR;
}

static int vfs_sector_size(sqlite3_file *base) {
    (void)base;
    return BLOCK;
}

/* Writes become durable in order, and a write changes no byte outside its range. */
static int vfs_characteristics(sqlite3_file *base) {
    (void)base;
    return SQLITE_IOCAP_SEQUENTIAL | SQLITE_IOCAP_POWERSAFE_OVERWRITE;
}

/* Ends a use of a volume; the last one closes it. The caller holds the mutex. */
static void leave(struct shared *shared) {
    if (--shared->users > 0)
        return;
    for (struct shared **at = &all_shared; *at; at = &(*at)->next)
        if (*at == shared) {
            *at = shared->next;
            break;
        }
    if (shared->store)
        store_close(shared->store);
    free(shared->cluster);
    free(shared);
}

static int vfs_close(sqlite3_file *base) {
    struct vfs_file *file = (struct vfs_file *)base;
    pthread_mutex_lock(&mutex);
    locks_lower(&file->shared->locks[file->number], file, &file->level, SQLITE_LOCK_NONE);
    for (struct vfs_file **at = &main_files; *at; at = &(*at)->next)
        if (*at == file) {
            *at = file->next;
            break;
        }
    leave(file->shared);
    pthread_mutex_unlock(&mutex);
    return SQLITE_OK;
}

static const sqlite3_io_methods methods = {
    .iVersion = 1,
    .xClose = vfs_close,
    .xRead = vfs_read,
    .xWrite = vfs_write,
    .xTruncate = vfs_truncate,
    .xSync = vfs_sync,
    .xFileSize = vfs_size,
    .xLock = vfs_lock,
    .xUnlock = vfs_unlock,
    .xCheckReservedLock = vfs_check_reserved,
    .xFileControl = vfs_control,
    .xSectorSize = vfs_sector_size,
    .xDeviceCharacteristics = vfs_characteristics,
};

/* Returns the volume of a database open in this process, by the name of the database or of one of its journals. */
static struct shared *shared_of(const char *name) {
    for (struct vfs_file *file = main_files; file; file = file->next) {
        size_t length = strlen(file->name);
        if (strncmp(name, file->name, length) == 0 && (name[length] == 0 || name[length] == '-'))
            return file->shared;
    }
    return NULL;
}

/* Takes a volume over; returns NULL on failure. The caller holds the mutex. */
static struct shared *take_over(const char *cluster, uint64_t timeout) {
    char fault[FAULT_LINE] = "out of memory";
    struct shared *shared = calloc(1, sizeof *shared);
    if (!shared)
        return NULL;
    shared->users = 1;
    shared->cluster = strdup(cluster);
    if (shared->cluster)
        shared->store = store_open(cluster, timeout, fault);
    if (!shared->store) {
        sqlite3_log(SQLITE_CANTOPEN, "volume %s: %s", cluster, fault);
        leave(shared);
        return NULL;
    }
    shared->next = all_shared;
    all_shared = shared;
    return shared;
}

/* Returns the volume for a file to open, and counts the use; NULL if there is none. The caller holds the mutex. */
static struct shared *enter(const char *name, int flags) {
    struct shared *shared = shared_of(name);
    const char *cluster = flags & SQLITE_OPEN_MAIN_DB ? sqlite3_uri_parameter(name, "cluster") : NULL;
    if (shared && cluster && strcmp(cluster, shared->cluster) != 0) {
        sqlite3_log(SQLITE_CANTOPEN, "%s is open from another volume", name);
        return NULL;
    }
    for (struct shared *one = all_shared; cluster && !shared && one; one = one->next)
        if (strcmp(cluster, one->cluster) == 0)
            shared = one;
    if (shared)
        shared->users++;
    else if (cluster)
        shared = take_over(cluster, (uint64_t)sqlite3_uri_int64(name, "timeout", TIMEOUT));
    return shared;
}

static int open_in(struct shared *shared, const char *name, struct vfs_file *file, int flags) {
    enum client_result result = CLIENT_OK;
    int number = store_find(shared->store, name);
    if (number < 0 && !(flags & SQLITE_OPEN_CREATE))
        return SQLITE_CANTOPEN;
    if (number < 0)
        result = store_create(shared->store, name, &number);
    if (result != CLIENT_OK)
        return code_of(result, SQLITE_IOERR);
    file->shared = shared;
    file->number = number;
    file->level = SQLITE_LOCK_NONE;
    file->base.pMethods = &methods;
    file->name = flags & SQLITE_OPEN_MAIN_DB ? name : NULL;
    if (file->name) {
        file->next = main_files;
        main_files = file;
    }
    return SQLITE_OK;
}

static int vfs_open(sqlite3_vfs *vfs, const char *name, sqlite3_file *base, int flags, int *out_flags) {
    struct vfs_file *file = (struct vfs_file *)base;
    (void)vfs;
    if (flags & SQLITE_OPEN_WAL)
        return SQLITE_CANTOPEN;
    if (!name || !(flags & VOLUME_FILES)) /* a temporary file is local */
        return system_vfs->xOpen(system_vfs, name, base, flags, out_flags);
    base->pMethods = NULL;
    pthread_mutex_lock(&mutex);
    struct shared *shared = enter(name, flags);
    int code = shared ? open_in(shared, name, file, flags) : SQLITE_CANTOPEN;
    if (shared && code != SQLITE_OK)
        leave(shared);
    pthread_mutex_unlock(&mutex);
    if (code == SQLITE_OK && out_flags)
        *out_flags = flags;
    return code;
}

/* Waits until the removal is durable even without `sync`: removing a journal is SQLite's commit. */
static int vfs_delete(sqlite3_vfs *vfs, const char *name, int sync) {
    (void)vfs, (void)sync;
    pthread_mutex_lock(&mutex);
    struct shared *shared = shared_of(name);
    int number = shared ? store_find(shared->store, name) : -1;
    enum client_result result = CLIENT_OK;
    if (number >= 0)
        result = store_remove(shared->store, number);
    if (number >= 0 && result == CLIENT_OK)
        result = store_sync(shared->store);
    pthread_mutex_unlock(&mutex);
    return number < 0 ? SQLITE_IOERR_DELETE_NOENT : code_of(result, SQLITE_IOERR_DELETE);
}

static int vfs_access(sqlite3_vfs *vfs, const char *name, int flags, int *out) {
    (void)vfs, (void)flags;
    pthread_mutex_lock(&mutex);
    struct shared *shared = shared_of(name);
    int number = shared ? store_find(shared->store, name) : -1;
    *out = number >= 0 && (flags != SQLITE_ACCESS_EXISTS || store_size(shared->store, number) > 0);
    pthread_mutex_unlock(&mutex);
    return SQLITE_OK;
}

/* Copies the name as it is: a volume has no folders. */
static int vfs_full_path(sqlite3_vfs *vfs, const char *name, int room, char *out) {
    (void)vfs;
    if ((int)strlen(name) >= room || strlen(name) + sizeof "-journal" > NAME_MOST)
        return SQLITE_CANTOPEN;
    strcpy(out, name);
    return SQLITE_OK;
}

static int vfs_random(sqlite3_vfs *vfs, int length, char *out) {
    (void)vfs;
    return system_vfs->xRandomness(system_vfs, length, out);
}

static int vfs_sleep(sqlite3_vfs *vfs, int microseconds) {
    (void)vfs;
    return system_vfs->xSleep(system_vfs, microseconds);
}

static int vfs_time(sqlite3_vfs *vfs, double *out) {
    (void)vfs;
    return system_vfs->xCurrentTime(system_vfs, out);
}

static int vfs_last_error(sqlite3_vfs *vfs, int room, char *out) {
    (void)vfs, (void)room, (void)out;
    return 0;
}

static sqlite3_vfs volume_vfs = {
    .iVersion = 1,
    .szOsFile = sizeof(struct vfs_file),
    .mxPathname = PATH_MOST,
    .zName = "volume",
    .xOpen = vfs_open,
    .xDelete = vfs_delete,
    .xAccess = vfs_access,
    .xFullPathname = vfs_full_path,
    .xRandomness = vfs_random,
    .xSleep = vfs_sleep,
    .xCurrentTime = vfs_time,
    .xGetLastError = vfs_last_error,
};

/* Sets the page size of a new database to 512, the size of a block. */
static int on_connection(sqlite3 *database, char **fault, const sqlite3_api_routines *api) {
    sqlite3_vfs *used = NULL;
    SQLITE_EXTENSION_INIT2(api);
    if (sqlite3_file_control(database, "main", SQLITE_FCNTL_VFS_POINTER, &used) != SQLITE_OK || used != &volume_vfs)
        return SQLITE_OK;
    return sqlite3_exec(database, "PRAGMA page_size = 512", NULL, NULL, fault);
}

int sqlite3_volumevfs_init(sqlite3 *database, char **fault, const sqlite3_api_routines *api);

int sqlite3_volumevfs_init(sqlite3 *database, char **fault, const sqlite3_api_routines *api) {
    (void)database, (void)fault;
    SQLITE_EXTENSION_INIT2(api);
    program_name = "volume_vfs";
    system_vfs = sqlite3_vfs_find(NULL);
    if (!system_vfs || system_vfs == &volume_vfs)
        return SQLITE_ERROR;
    if (system_vfs->szOsFile > volume_vfs.szOsFile)
        volume_vfs.szOsFile = system_vfs->szOsFile;
    int code = sqlite3_vfs_register(&volume_vfs, 0);
    if (code == SQLITE_OK)
        code = sqlite3_auto_extension((void (*)(void))on_connection);
    return code == SQLITE_OK ? SQLITE_OK_LOAD_PERMANENTLY : code;
}

/* Giving up the rights of the user who started the server. */
#include "server.h"

#include <grp.h>
#include <linux/capability.h>
#include <pwd.h>
#include <sys/syscall.h>

/* Gives up all capabilities; without them none is ambient either. */
static bool drop_capabilities(void) {
    struct __user_cap_header_struct header = {_LINUX_CAPABILITY_VERSION_3, 0};
    struct __user_cap_data_struct none[_LINUX_CAPABILITY_U32S_3];
    memset(none, 0, sizeof none);
    return syscall(SYS_capset, &header, none) == 0;
}

bool keep_reading_rights(void) {
    struct __user_cap_header_struct header = {_LINUX_CAPABILITY_VERSION_3, 0};
    struct __user_cap_data_struct had[_LINUX_CAPABILITY_U32S_3], kept[_LINUX_CAPABILITY_U32S_3];
    memset(kept, 0, sizeof kept);
    if (syscall(SYS_capget, &header, had) != 0) return false;
    kept[0].permitted = kept[0].effective = had[0].permitted & 1u << CAP_DAC_READ_SEARCH;
    return syscall(SYS_capset, &header, kept) == 0;
}

/* Becomes a user. A process that is this user's, and may not change its groups, keeps them. */
static bool change_to(uid_t user, gid_t group) {
    bool is_theirs = geteuid() == user;
    if (setgroups(1, &group) != 0 && !(is_theirs && errno == EPERM)) return false;
    return setresgid(group, group, group) == 0 && setresuid(user, user, user) == 0 &&
           drop_capabilities();
}

/* Whether the process is a user's and of their group, and can't become root again. */
static bool is_user(uid_t user, gid_t group) {
    uid_t users[3];
    gid_t groups[3];
    if (getresuid(&users[0], &users[1], &users[2]) != 0) return false;
    if (getresgid(&groups[0], &groups[1], &groups[2]) != 0) return false;
    for (int i = 0; i < 3; i++) {
        if (users[i] != user || groups[i] != group) return false;
    }
    return setuid(0) != 0 && setgid(0) != 0;
}

bool become_user(const char *name) {
    errno = 0;
    const struct passwd *user = getpwnam(name);
    if (user == NULL || user->pw_uid == 0 || user->pw_gid == 0) {
        fprintf(stderr, "stun-server: -U %s: %s\n", name,
                user != NULL ? "that is root" : errno != 0 ? strerror(errno) : "no such user");
        return false;
    }
    uid_t uid = user->pw_uid;
    gid_t gid = user->pw_gid;
    if (!change_to(uid, gid)) return cannot("-U");
    if (is_user(uid, gid)) return true;
    fprintf(stderr, "stun-server: -U %s: rights are left\n", name);
    return false;
}

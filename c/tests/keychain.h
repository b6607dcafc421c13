/* Keys of a test. Making one may allocate; what is passed is guarded. */
#ifndef KEYCHAIN_H
#define KEYCHAIN_H

#include "check.h"

/* A key that holds none. */
stun_types_key *no_key(void);

/* The key of a password, and that with these bytes; free it before the row ends. */
stun_types_key *password_key(slice password);
stun_types_key *bytes_key(slice bytes, stun_types_integrity algorithm);

/* The key of `user`, `realm` and `pass` by a password algorithm. */
stun_types_key *login_key(stun_types_password algorithm);

#endif

#!/bin/sh
# Verifies a login for PAM's pam_exec, which writes the password to standard input.
why=$(argon2-passwd verify /var/lib/accounts/accounts.db -- "$PAM_USER" 2>&1) && exit
status=$?
logger -t login -p auth.notice "refused ${PAM_RHOST:-localhost}: $why"
exit "$status"

#!/bin/sh
# Verifies a login for Apache's mod_authnz_external, which writes the name and the password on two lines of standard input.
IFS= read -r name
exec argon2-passwd verify /var/lib/accounts/accounts.db -- "$name" >/dev/null

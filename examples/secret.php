<?php
// Hashes a password under a secret key ("pepper"), and verifies it. PHP's password_hash accepts no secret, so this hashes an HMAC
// of the password.

const COSTS = ['memory_cost' => 19456, 'time_cost' => 2, 'threads' => 1];

// Returns what is hashed, which is 44 characters of Base64, and so has no NUL. Without a secret, which is '', it is the password
// itself.
function under(string $secret, string $password): string
{
    return $secret === '' ? $password : base64_encode(hash_hmac('sha256', $password, $secret, true));
}

// Returns the hash of a password under the secret. (A file that can't be read gives '' or false, which must not be the secret.)
function hash_under(string $secret, string $password): string
{
    if (strlen($secret) < 16) {
        throw new InvalidArgumentException('the secret has less than 16 bytes');
    }
    return password_hash(under($secret, $password), PASSWORD_ARGON2ID, COSTS);
}

// Returns the hash to store from now on if a stored hash accepts a password under the secret or an older secret, else null.
function log_in_under(string $secret, string $stored, string $password, string ...$older): ?string
{
    foreach ([$secret, ...$older] as $it) {
        if (password_verify(under($it, $password), $stored)) {
            $is_current = $it === $secret && !password_needs_rehash($stored, PASSWORD_ARGON2ID, COSTS);
            return $is_current ? $stored : hash_under($secret, $password);
        }
    }
    return null;
}

// A service reads its secret from a file that is not with the hashes.
$secret = 'the secret of 32 bytes in a file';
$stored = hash_under($secret, 'correct horse');
echo $stored, "\n";
echo json_encode(log_in_under($secret, $stored, 'correct horse') === $stored), ' ';
echo json_encode(log_in_under($secret, $stored, 'wrong horse') !== null), "\n";

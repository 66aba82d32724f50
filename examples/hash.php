<?php
// Hashes a password and verifies it.
$costs = ['memory_cost' => 19456, 'time_cost' => 2, 'threads' => 1];
$hash = password_hash('correct horse', PASSWORD_ARGON2ID, $costs);
echo $hash, "\n";
echo json_encode(password_verify('correct horse', $hash)), ' ', json_encode(password_verify('wrong horse', $hash)), "\n";

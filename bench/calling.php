<?php
// Hashes and verifies with PHP's own functions. The status is 0 only if each answer is right.

foreach ([PASSWORD_ARGON2I, PASSWORD_ARGON2ID] as $kind) {
    $costs = ['memory_cost' => 1024, 'time_cost' => 3, 'threads' => 1];
    $text = password_hash('correct horse', $kind, $costs);
    $accepts = password_verify('correct horse', $text);
    $accepts_wrong = password_verify('wrong', $text);
    $is_old = password_needs_rehash($text, $kind, $costs);
    echo $text, ' ', var_export([$accepts, $accepts_wrong, $is_old], true), PHP_EOL;
    if (!$accepts || $accepts_wrong || $is_old) {
        exit(1);
    }
}
// (this text is from the reference's test.c)
$known = '$argon2id$v=19$m=256,t=2,p=2$c29tZXNhbHQ$bQk8UB/VmZZF4Oo79iDXuL5/0ttZwg2f/5U52iv1cDc';
exit(password_verify('password', $known) ? 0 : 1);

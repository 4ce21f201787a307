<?php
// Asks tools/adsd-ldap by PHP's ldap: php with.php URL NAME PASSWORD BASE ACCOUNT. Prints what it found.
[, $url, $name, $password, $base, $account] = $argv;
$one = ldap_connect($url);
ldap_set_option($one, LDAP_OPT_PROTOCOL_VERSION, 3);
ldap_set_option($one, LDAP_OPT_REFERRALS, 0);
ldap_bind($one, $name, $password) or exit(1);
$count = 0;
$cookie = '';
do {
    $asked = ['size' => 50, 'cookie' => $cookie];
    $page = [['oid' => LDAP_CONTROL_PAGEDRESULTS, 'iscritical' => true, 'value' => $asked]];
    $found = ldap_search($one, $base, '(objectClass=*)', ['1.1'], 0, 0, 0, LDAP_DEREF_NEVER, $page);
    ldap_parse_result($one, $found, $code, $matched, $text, $referrals, $controls);
    $count += ldap_count_entries($one, $found);
    $cookie = $controls[LDAP_CONTROL_PAGEDRESULTS]['value']['cookie'] ?? '';
} while ($cookie !== '');
echo 'paged ', $count > 10 ? 1 : 0, "\n";
$order = [['oid' => LDAP_CONTROL_SORTREQUEST, 'iscritical' => true, 'value' => [['attr' => 'cn']]]];
$found = ldap_search($one, $base, "(sAMAccountName=$account)", ['cn'], 0, 0, 0, LDAP_DEREF_NEVER, $order);
echo 'found ', ldap_get_entries($one, $found)[0]['cn'][0], "\n";
ldap_add($one, "OU=by php,$base", ['objectClass' => 'organizationalUnit']) or exit(1);
ldap_mod_replace($one, "OU=by php,$base", ['description' => 'by PHP']) or exit(1);
echo 'compare ', ldap_compare($one, "OU=by php,$base", 'description', 'by PHP') ? 1 : 0, "\n";
ldap_rename($one, "OU=by php,$base", 'OU=by php again', '', true) or exit(1);
ldap_delete($one, "OU=by php again,$base") or exit(1);
echo 'who ', ldap_exop_whoami($one) !== '' ? 1 : 0, "\n";
echo 'refused ', @ldap_bind($one, $name, 'wrong') ? 0 : ldap_errno($one), "\n";

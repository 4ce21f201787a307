# Asks tools/adsd-ldap by net-ldap: ruby with.rb HOST:PORT NAME PASSWORD BASE ACCOUNT. Prints what it found.
require 'net/ldap'

place, name, password, base, account = ARGV
host, port = place.split(':')
one = Net::LDAP.new(host: host, port: port.to_i, auth: { method: :simple, username: name, password: password })
abort one.get_operation_result.message unless one.bind
puts "paged #{one.search(base: base, attributes: ['1.1'], paged_searches_supported: true).size > 10}"
found = one.search(base: base, filter: Net::LDAP::Filter.eq('sAMAccountName', account), attributes: ['cn'])
puts "found #{found.first.cn.first}"
in_group = Net::LDAP::Filter.ex('memberOf:1.2.840.113556.1.4.1941', "CN=Administrators,CN=Builtin,#{base}")
puts "chain #{!one.search(base: base, filter: in_group, attributes: ['1.1']).nil?}"
unit = "OU=by ruby,#{base}"
abort one.get_operation_result.message unless one.add(dn: unit, attributes: { objectclass: 'organizationalUnit' })
abort one.get_operation_result.message unless one.replace_attribute(unit, :description, 'by Ruby')
abort one.get_operation_result.message unless one.rename(olddn: unit, newrdn: 'OU=by rubies', delete_attributes: true)
abort one.get_operation_result.message unless one.delete(dn: "OU=by rubies,#{base}")
puts "refused #{!one.bind(method: :simple, username: name, password: 'wrong')}"

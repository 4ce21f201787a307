// Asks tools/adsd-ldap by the ldap library of Go: go run with.go URL NAME PASSWORD BASE ACCOUNT. Prints what it found.
package main

import (
	"fmt"
	"os"

	"github.com/go-ldap/ldap"
)

func must(fault error) {
	if fault != nil {
		fmt.Println(fault)
		os.Exit(1)
	}
}

func main() {
	url, name, password, base, account := os.Args[1], os.Args[2], os.Args[3], os.Args[4], os.Args[5]
	one, fault := ldap.DialURL(url)
	must(fault)
	defer one.Close()
	must(one.Bind(name, password))
	every := ldap.NewSearchRequest(base, ldap.ScopeWholeSubtree, ldap.NeverDerefAliases, 0, 0, false,
		"(objectClass=*)", []string{"1.1"}, nil)
	found, fault := one.SearchWithPaging(every, 50)
	must(fault)
	fmt.Println("paged", len(found.Entries) > 10)
	filter := "(&(sAMAccountName=" + ldap.EscapeFilter(account) + ")(!(userAccountControl:1.2.840.113556.1.4.803:=2)))"
	asked := ldap.NewSearchRequest(base, ldap.ScopeWholeSubtree, ldap.NeverDerefAliases, 0, 0, false,
		filter, []string{"cn", "memberOf"}, nil)
	found, fault = one.Search(asked)
	must(fault)
	fmt.Println("found", found.Entries[0].GetAttributeValue("cn"))
	unit := "OU=by go," + base
	add := ldap.NewAddRequest(unit, nil)
	add.Attribute("objectClass", []string{"organizationalUnit"})
	must(one.Add(add))
	modify := ldap.NewModifyRequest(unit, nil)
	modify.Replace("description", []string{"by Go"})
	must(one.Modify(modify))
	same, fault := one.Compare(unit, "description", "by Go")
	must(fault)
	fmt.Println("compare", same)
	must(one.ModifyDN(ldap.NewModifyDNRequest(unit, "OU=by golang", true, "")))
	must(one.Del(ldap.NewDelRequest("OU=by golang,"+base, nil)))
	who, fault := one.WhoAmI(nil)
	must(fault)
	fmt.Println("who", who.AuthzID != "")
	fmt.Println("refused", ldap.IsErrorWithCode(one.Bind(name, "wrong"), ldap.LDAPResultInvalidCredentials))
}

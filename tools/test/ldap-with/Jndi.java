import java.util.Hashtable;
import javax.naming.AuthenticationException;
import javax.naming.Context;
import javax.naming.NamingEnumeration;
import javax.naming.directory.*;
import javax.naming.ldap.*;

/** Asks tools/adsd-ldap by JNDI: java Jndi.java URL NAME PASSWORD BASE ACCOUNT. Prints what it found. */
public class Jndi {
    static LdapContext bound(String url, String name, String password) throws Exception {
        Hashtable<String, Object> words = new Hashtable<>();
        words.put(Context.INITIAL_CONTEXT_FACTORY, "com.sun.jndi.ldap.LdapCtxFactory");
        words.put(Context.PROVIDER_URL, url);
        words.put(Context.SECURITY_AUTHENTICATION, "simple");
        words.put(Context.SECURITY_PRINCIPAL, name);
        words.put(Context.SECURITY_CREDENTIALS, password);
        words.put("java.naming.ldap.attributes.binary", "objectSid objectGUID tokenGroups");
        return new InitialLdapContext(words, null);
    }

    static int paged(LdapContext one, String base) throws Exception {
        SearchControls all = new SearchControls();
        all.setSearchScope(SearchControls.SUBTREE_SCOPE);
        all.setReturningAttributes(new String[] {"1.1"});
        byte[] cookie = null;
        int count = 0;
        do {
            one.setRequestControls(new Control[] {new PagedResultsControl(50, cookie, Control.CRITICAL)});
            NamingEnumeration<SearchResult> found = one.search(base, "(objectClass=*)", all);
            while (found.hasMore()) {
                found.next();
                count++;
            }
            cookie = null;
            for (Control control : one.getResponseControls()) {
                if (control instanceof PagedResultsResponseControl) {
                    cookie = ((PagedResultsResponseControl) control).getCookie();
                }
            }
        } while (cookie != null && cookie.length > 0);
        one.setRequestControls(null);
        return count;
    }

    public static void main(String[] words) throws Exception {
        LdapContext one = bound(words[0], words[1], words[2]);
        String base = words[3], account = words[4];
        System.out.println("root " + one.getAttributes("", new String[] {"defaultNamingContext"})
            .get("defaultNamingContext").get());
        DirContext schema = one.getSchema("");
        System.out.println("cn " + schema.getAttributes("AttributeDefinition/cn").get("SYNTAX").get());
        System.out.println("user " + schema.getAttributes("ClassDefinition/user").get("SUP").get());
        System.out.println("paged " + (paged(one, base) > 10));
        one.setRequestControls(new Control[] {new SortControl(new String[] {"cn"}, Control.CRITICAL)});
        SearchControls sub = new SearchControls();
        sub.setSearchScope(SearchControls.SUBTREE_SCOPE);
        sub.setReturningAttributes(new String[] {"cn"});
        NamingEnumeration<SearchResult> found = one.search(base, "(sAMAccountName=" + account + ")", sub);
        System.out.println("found " + found.next().getAttributes().get("cn").get());
        while (found.hasMore()) found.next();
        one.setRequestControls(null);
        String name = "OU=by jndi," + base;
        Attributes made = new BasicAttributes("objectClass", "organizationalUnit", true);
        one.createSubcontext(name, made).close();
        one.modifyAttributes(name, new ModificationItem[] {
            new ModificationItem(DirContext.REPLACE_ATTRIBUTE, new BasicAttribute("description", "by JNDI"))});
        System.out.println("description " + one.getAttributes(name).get("description").get());
        one.rename(name, "OU=by java," + base);
        one.destroySubcontext("OU=by java," + base);
        try {
            bound(words[0], words[1], "wrong");
            System.out.println("a wrong password is taken");
        } catch (AuthenticationException refused) {
            System.out.println("refused " + refused.getMessage().contains("data 52e"));
        }
        one.close();
    }
}

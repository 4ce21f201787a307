import java.util.Hashtable;
import javax.naming.Context;
import javax.naming.NamingEnumeration;
import javax.naming.directory.Attributes;
import javax.naming.directory.InitialDirContext;
import org.apache.directory.api.ldap.model.schema.parsers.*;

/**
 * Reads the subschema of tools/adsd-ldap by the parsers that Apache Directory Studio has, those of the Apache Directory
 * API: java -cp .. Studio.java URL NAME PASSWORD BASE ACCOUNT. Prints whether each kind of line could be read.
 */
public class Studio {
    interface Parser {
        Object parse(String line) throws Exception;
    }

    static void all(Attributes held, String kind, Parser parser) throws Exception {
        int count = 0;
        for (NamingEnumeration<?> lines = held.get(kind).getAll(); lines.hasMore(); count++) {
            parser.parse((String) lines.next());
        }
        System.out.println(kind + " " + (count > 0));
    }

    public static void main(String[] words) throws Exception {
        Hashtable<String, Object> asked = new Hashtable<>();
        asked.put(Context.INITIAL_CONTEXT_FACTORY, "com.sun.jndi.ldap.LdapCtxFactory");
        asked.put(Context.PROVIDER_URL, words[0]);
        asked.put(Context.SECURITY_PRINCIPAL, words[1]);
        asked.put(Context.SECURITY_CREDENTIALS, words[2]);
        InitialDirContext one = new InitialDirContext(asked);
        Attributes root = one.getAttributes("", new String[] {"subschemaSubentry"});
        String place = (String) root.get("subschemaSubentry").get();
        Attributes held = one.getAttributes(place, new String[] {
            "attributeTypes", "objectClasses", "matchingRules", "ldapSyntaxes", "dITContentRules"});
        AttributeTypeDescriptionSchemaParser types = new AttributeTypeDescriptionSchemaParser();
        all(held, "attributeTypes", types::parse);
        ObjectClassDescriptionSchemaParser classes = new ObjectClassDescriptionSchemaParser();
        all(held, "objectClasses", classes::parse);
        MatchingRuleDescriptionSchemaParser rules = new MatchingRuleDescriptionSchemaParser();
        all(held, "matchingRules", rules::parse);
        LdapSyntaxDescriptionSchemaParser syntaxes = new LdapSyntaxDescriptionSchemaParser();
        all(held, "ldapSyntaxes", syntaxes::parse);
    }
}

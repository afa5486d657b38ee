// The parse errors that the parser of the Nu validator reports: `.ci/tree-errors` runs it. Each line of standard input is a text: 1 or 0 for
// scripting, its context or nothing, and its UTF-8 in base 64, with a tab between two of them. For each text there are lines of standard
// output with the lines and messages of its errors, and then a line with a dot.
import java.io.BufferedReader;
import java.io.InputStreamReader;
import java.io.StringReader;
import java.nio.charset.StandardCharsets;
import java.util.Base64;
import nu.validator.htmlparser.common.XmlViolationPolicy;
import nu.validator.htmlparser.sax.HtmlParser;
import org.xml.sax.InputSource;
import org.xml.sax.SAXParseException;
import org.xml.sax.helpers.DefaultHandler;

public class NuErrors extends DefaultHandler {
    @Override
    public void error(SAXParseException error) {
        System.out.println(error.getLineNumber() + "\t" + error.getMessage());
    }

    @Override
    public void fatalError(SAXParseException error) {
        error(error);
    }

    public static void main(String[] words) throws Exception {
        BufferedReader lines = new BufferedReader(new InputStreamReader(System.in, StandardCharsets.UTF_8));
        for (String line = lines.readLine(); line != null; line = lines.readLine()) {
            String[] parts = line.split("\t", 3);
            HtmlParser parser = new HtmlParser(XmlViolationPolicy.ALLOW);
            parser.setScriptingEnabled(parts[0].equals("1"));
            NuErrors handler = new NuErrors();
            parser.setContentHandler(handler);
            parser.setErrorHandler(new DefaultHandler());
            parser.setTreeBuilderErrorHandlerOverride(handler);
            String text = new String(Base64.getDecoder().decode(parts[2]), StandardCharsets.UTF_8);
            InputSource source = new InputSource(new StringReader(text));
            if (parts[1].isEmpty()) {
                parser.parse(source);
            } else {
                parser.parseFragment(source, parts[1]);
            }
            System.out.println(".");
        }
    }
}

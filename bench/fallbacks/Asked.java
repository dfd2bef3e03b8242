// Answers each line "TAG TAG ..<TAB>FIELD" of standard input by Java's Locale.lookup: with a tag as
// the line has it, or "-".
import java.io.BufferedReader;
import java.io.InputStreamReader;
import java.util.LinkedHashMap;
import java.util.List;
import java.util.Locale;
import java.util.Map;

public class Asked {
    static String answer(String[] tags, String field) {
        Map<Locale, String> offered = new LinkedHashMap<>();
        for (String tag : tags) offered.putIfAbsent(Locale.forLanguageTag(tag), tag);
        List<Locale.LanguageRange> ranges = Locale.LanguageRange.parse(field);
        Locale found = Locale.lookup(ranges, offered.keySet());
        return found == null ? "-" : offered.get(found);
    }

    public static void main(String[] words) throws java.io.IOException {
        BufferedReader lines = new BufferedReader(new InputStreamReader(System.in));
        StringBuilder said = new StringBuilder();
        for (String line = lines.readLine(); line != null; line = lines.readLine()) {
            String[] parts = line.split("\t");
            said.append(answer(parts[0].split(" "), parts[1])).append('\n');
        }
        System.out.print(said);
    }
}

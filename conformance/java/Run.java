import java.io.IOException;
import java.nio.charset.StandardCharsets;
import java.nio.file.Files;
import java.nio.file.Path;
import java.util.ArrayList;
import java.util.Collections;
import java.util.Comparator;
import java.util.LinkedHashMap;
import java.util.List;
import java.util.Locale;
import java.util.Map;
import java.util.TreeMap;
import java.util.TreeSet;
import java.util.stream.Stream;

/**
 * Asks a library the vectors, and prints of each file how many answers agree, how many differ, and
 * how many vectors it has no call for; then each answer that differs.
 *
 * <p>usage: java Run VECTORS [ADAPTER], where ADAPTER is a class that implements Run.Adapter, by
 * default Plain. Needed: Java 17 or later, and nothing else.
 */
public final class Run {
  /** What a library answers; what an adapter leaves out is not asked. */
  public interface Adapter {
    /** The parts of a tag, or null; TRUE for parts that the library does not tell. */
    default Object tag(String text) {
      throw new UnsupportedOperationException();
    }

    default boolean basicRange(String text) {
      throw new UnsupportedOperationException();
    }

    default boolean extendedRange(String text) {
      throw new UnsupportedOperationException();
    }

    /** The items of a field, each a range and a weight in thousandths. */
    default List<List<Object>> field(String text) throws Malformed {
      throw new UnsupportedOperationException();
    }

    /** The tags that match. A list of basic ranges comes as a field with falling weights. */
    default List<String> basicFiltering(String field, List<String> tags) throws Malformed {
      throw new UnsupportedOperationException();
    }

    default List<String> extendedFiltering(List<String> ranges, List<String> tags) {
      throw new UnsupportedOperationException();
    }

    /** The tag that is found, or null. */
    default String lookup(String field, List<String> tags, String fallback) throws Malformed {
      throw new UnsupportedOperationException();
    }

    default String extendedLookup(List<String> ranges, List<String> tags, String fallback) {
      throw new UnsupportedOperationException();
    }
  }

  /** A field is malformed, at the place of an element in bytes from 0; -1 if that is not known. */
  public static final class Malformed extends Exception {
    private static final long serialVersionUID = 1;
    final long place;

    public Malformed(long place) {
      this.place = place;
    }
  }

  private static final class Json {
    private final String text;
    private int at;

    Json(String text) {
      this.text = text;
    }

    private char next() {
      while (Character.isWhitespace(text.charAt(at))) {
        at++;
      }
      return text.charAt(at);
    }

    private boolean takes(char wanted) {
      if (next() != wanted) {
        return false;
      }
      at++;
      return true;
    }

    Object value() {
      char first = next();
      if (first == '"') {
        return string();
      }
      if (takes('[')) {
        List<Object> items = new ArrayList<>();
        while (!takes(']')) {
          items.add(value());
          takes(',');
        }
        return items;
      }
      if (takes('{')) {
        Map<String, Object> members = new LinkedHashMap<>();
        while (!takes('}')) {
          next();
          String name = string();
          takes(':');
          members.put(name, value());
          takes(',');
        }
        return members;
      }
      int from = at;
      while (",]}".indexOf(text.charAt(at)) < 0 && !Character.isWhitespace(text.charAt(at))) {
        at++;
      }
      String word = text.substring(from, at);
      return switch (word) {
        case "null" -> null;
        case "true", "false" -> Boolean.valueOf(word);
        default -> Long.valueOf(word);
      };
    }

    private String string() {
      StringBuilder made = new StringBuilder();
      for (at++; text.charAt(at) != '"'; at++) {
        char one = text.charAt(at);
        if (one == '\\') {
          char escaped = text.charAt(++at);
          int known = "bfnrt".indexOf(escaped);
          if (escaped == 'u') {
            made.append((char) Integer.parseInt(text.substring(at + 1, at + 5), 16));
            at += 4;
          } else {
            made.append(known < 0 ? escaped : "\b\f\n\r\t".charAt(known));
          }
        } else {
          made.append(one);
        }
      }
      at++;
      return made.toString();
    }
  }

  /** The list of a vector as a field: a list of ranges is one of falling weights. */
  private static String fieldOf(Map<String, Object> vector) {
    if (vector.containsKey("field")) {
      return (String) vector.get("field");
    }
    StringBuilder made = new StringBuilder();
    List<String> ranges = texts(vector, "ranges");
    for (int at = 0; at < ranges.size(); at++) {
      made.append(at == 0 ? "" : ", ").append(ranges.get(at));
      made.append(at == 0 ? "" : String.format(Locale.ROOT, ";q=%.3f", (1000 - at) / 1000.0));
    }
    return made.toString();
  }

  @SuppressWarnings("unchecked")
  private static List<String> texts(Map<String, Object> vector, String name) {
    return (List<String>) vector.get(name);
  }

  private static Object asked(Adapter it, String subject, Map<String, Object> vector)
      throws Malformed {
    String text = (String) vector.getOrDefault("tag", vector.get("range"));
    List<String> tags = texts(vector, "tags");
    List<String> ranges = texts(vector, "ranges");
    String fallback = (String) vector.get("default");
    return switch (subject) {
      case "tags" -> it.tag(text);
      case "basic-ranges" -> it.basicRange(text);
      case "extended-ranges" -> it.extendedRange(text);
      case "fields" -> it.field((String) vector.get("field"));
      case "basic-filtering" -> it.basicFiltering(fieldOf(vector), tags);
      case "extended-filtering" -> it.extendedFiltering(ranges, tags);
      case "lookup" -> it.lookup(fieldOf(vector), tags, fallback);
      case "extended-lookup" -> it.extendedLookup(ranges, tags, fallback);
      default -> throw new IllegalArgumentException(subject);
    };
  }

  /** An answer without case and without the order of members; a set of tags has no order. */
  private static Object lowered(Object answer) {
    if (answer instanceof String text) {
      return text.toLowerCase(Locale.ROOT);
    }
    if (answer instanceof Map<?, ?> members) {
      Map<Object, Object> made = new TreeMap<>();
      members.forEach((name, value) -> made.put(name, lowered(value)));
      return made;
    }
    if (answer instanceof List<?> items) {
      List<Object> made = new ArrayList<>(items.stream().map(Run::lowered).toList());
      boolean isSet = items.stream().allMatch(String.class::isInstance);
      return isSet ? new ArrayList<>(new TreeSet<>(made)) : made;
    }
    return answer;
  }

  private static boolean agrees(Object given, Object answer) {
    boolean isFault = answer instanceof Map<?, ?> it
        && (it.containsKey("malformed") || it.containsKey("refused"));
    if (given instanceof Malformed fault) {
      Object place = isFault ? ((Map<?, ?>) answer).get("malformed") : null;
      return isFault && (fault.place < 0 || place == null || place.equals(fault.place));
    }
    if (Boolean.TRUE.equals(given) && (answer instanceof Map || answer instanceof List)) {
      return !isFault;
    }
    Object one = lowered(given);
    return one == null ? answer == null : one.equals(lowered(answer));
  }

  @SuppressWarnings("unchecked")
  public static void main(String[] words) throws IOException, ReflectiveOperationException {
    String name = words.length > 1 ? words[1] : "Plain";
    Adapter adapter = (Adapter) Class.forName(name).getDeclaredConstructor().newInstance();
    List<Path> paths;
    try (Stream<Path> found = Files.list(Path.of(words[0]))) {
      paths = found.filter(it -> it.toString().endsWith(".json")).sorted(Comparator.naturalOrder())
          .toList();
    }
    List<String> differing = new ArrayList<>();
    for (Path path : paths) {
      String text = Files.readString(path, StandardCharsets.UTF_8);
      Map<String, Object> document = (Map<String, Object>) new Json(text).value();
      String subject = (String) document.get("subject");
      int agreed = 0;
      int differed = 0;
      int left = 0;
      for (Map<String, Object> vector : (List<Map<String, Object>>) document.get("vectors")) {
        Object given;
        try {
          given = asked(adapter, subject, vector);
        } catch (Malformed fault) {
          given = fault;
        } catch (UnsupportedOperationException fault) {
          left++;
          continue;
        }
        Object answer = given;
        List<Object> wanted = (List<Object>) vector.getOrDefault("admits",
            Collections.singletonList(vector.get("answer")));
        if (wanted.stream().anyMatch(it -> agrees(answer, it))) {
          agreed++;
        } else {
          differed++;
          differing.add(vector.get("id") + ": " + given + ", and not " + wanted + ": " + vector);
        }
      }
      String file = path.getFileName().toString().replace(".json", "");
      System.out.println(file + "\t" + agreed + "\t" + differed + "\t" + left);
    }
    differing.forEach(System.out::println);
    System.exit(differing.isEmpty() ? 0 : 1);
  }
}

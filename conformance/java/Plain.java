import java.nio.charset.StandardCharsets;
import java.util.ArrayList;
import java.util.Arrays;
import java.util.Comparator;
import java.util.LinkedHashMap;
import java.util.List;
import java.util.Map;
import java.util.Set;
import java.util.regex.Matcher;
import java.util.regex.Pattern;

/** The rules of the RFCs in plain Java, as an adapter for Run. */
public final class Plain implements Run.Adapter {
  private static final Set<String> IRREGULAR = Set.of(("en-gb-oed i-ami i-bnn i-default i-enochian"
      + " i-hak i-klingon i-lux i-mingo i-navajo i-pwn i-tao i-tay i-tsu sgn-be-fr sgn-be-nl"
      + " sgn-ch-de").split(" "));
  private static final Pattern BASIC =
      Pattern.compile("[A-Za-z]{1,8}(?:-[A-Za-z0-9]{1,8})*|\\*");
  private static final Pattern EXTENDED =
      Pattern.compile("(?:[A-Za-z]{1,8}|\\*)(?:-(?:[A-Za-z0-9]{1,8}|\\*))*");
  private static final Pattern ELEMENT = Pattern.compile("(" + BASIC.pattern() + ")"
      + "(?:[ \t]*;[ \t]*[qQ]=(0(?:\\.[0-9]{0,3})?|1(?:\\.0{0,3})?))?");

  private record Item(String range, int weight) {}

  /** Letters of ASCII in lower case. */
  private static String lower(String text) {
    StringBuilder made = new StringBuilder(text);
    for (int at = 0; at < text.length(); at++) {
      char one = text.charAt(at);
      made.setCharAt(at, one >= 'A' && one <= 'Z' ? (char) (one + 32) : one);
    }
    return made.toString();
  }

  private static List<String> subtags(String text) {
    return new ArrayList<>(Arrays.asList(text.split("-", -1)));
  }

  /** Takes the subtags at the front that have a form, at most some of them. */
  private static List<String> taken(List<String> subtags, String form, int most) {
    List<String> found = new ArrayList<>();
    while (found.size() < most && !subtags.isEmpty() && subtags.get(0).matches(form)) {
      found.add(subtags.remove(0));
    }
    return found;
  }

  @Override
  public Object tag(String text) {
    List<String> left = subtags(lower(text));
    if (IRREGULAR.contains(lower(text))) {
      return Map.of("grandfathered", lower(text));
    }
    Map<String, Object> parts = new LinkedHashMap<>();
    if (!left.get(0).equals("x")) {
      List<String> language = taken(left, "[a-z]{2,8}", 1);
      if (language.isEmpty()) {
        return null;
      }
      parts.put("language", language.get(0));
      parts.put("extlangs", language.get(0).length() < 4 ? taken(left, "[a-z]{3}", 3) : List.of());
      for (String one : taken(left, "[a-z]{4}", 1)) {
        parts.put("script", one);
      }
      for (String one : taken(left, "[a-z]{2}|[0-9]{3}", 1)) {
        parts.put("region", one);
      }
      parts.put("variants", taken(left, "[a-z0-9]{5,8}|[0-9][a-z0-9]{3}", Integer.MAX_VALUE));
      List<List<String>> extensions = new ArrayList<>();
      List<String> one;
      while (!(one = taken(left, "[0-9a-wyz]", 1)).isEmpty()) {
        one.addAll(taken(left, "[a-z0-9]{2,8}", Integer.MAX_VALUE));
        if (one.size() < 2) {
          return null;
        }
        extensions.add(one);
      }
      parts.put("extensions", extensions);
    }
    if (!taken(left, "x", 1).isEmpty()) {
      parts.put("private", taken(left, "[a-z0-9]{1,8}", Integer.MAX_VALUE));
      if (((List<?>) parts.get("private")).isEmpty()) {
        return null;
      }
    }
    parts.values().removeIf(it -> it instanceof List<?> list && list.isEmpty());
    return left.isEmpty() ? parts : null;
  }

  @Override
  public boolean basicRange(String text) {
    return BASIC.matcher(text).matches();
  }

  @Override
  public boolean extendedRange(String text) {
    return EXTENDED.matcher(text).matches();
  }

  private static List<Item> items(String text) throws Run.Malformed {
    List<Item> items = new ArrayList<>();
    long place = 0;
    for (String piece : text.split(",", -1)) {
      String element = piece.replaceAll("^[ \t]+|[ \t]+$", "");
      Matcher found = ELEMENT.matcher(element);
      if (found.matches()) {
        String weight = found.group(2) == null ? "1" : found.group(2);
        items.add(new Item(lower(found.group(1)), (int) Math.round(
            Double.parseDouble(weight) * 1000)));
      } else if (!element.isEmpty()) {
        throw new Run.Malformed(place + piece.indexOf(element));
      }
      place += piece.getBytes(StandardCharsets.UTF_8).length + 1;
    }
    return items;
  }

  @Override
  public List<List<Object>> field(String text) throws Run.Malformed {
    return items(text).stream().map(it -> List.<Object>of(it.range, (long) it.weight)).toList();
  }

  private static boolean basicMatch(String range, String tag) {
    return range.equals("*") || tag.equals(range) || tag.startsWith(range + "-");
  }

  /** RFC 4647 section 3.3.2, by its steps. */
  private static boolean extendedMatch(String range, String tag) {
    List<String> wanted = subtags(lower(range));
    List<String> given = subtags(lower(tag));
    if (!wanted.get(0).equals("*") && !wanted.get(0).equals(given.get(0))) {
      return false;
    }
    int to = 1;
    for (String one : wanted.subList(1, wanted.size())) {
      while (!one.equals("*")) {
        if (to == given.size()) {
          return false;
        }
        String subtag = given.get(to++);
        if (subtag.equals(one)) {
          break;
        }
        if (subtag.length() == 1) {
          return false;
        }
      }
    }
    return true;
  }

  /** The longest range that matches, and the first of these; or null. */
  private static Item deciding(List<Item> items, String tag) {
    Item best = null;
    int most = -1;
    for (Item it : items) {
      int count = it.range.equals("*") ? 0 : subtags(it.range).size();
      if (basicMatch(it.range, lower(tag)) && count > most) {
        best = it;
        most = count;
      }
    }
    return best;
  }

  @Override
  public List<String> basicFiltering(String field, List<String> tags) throws Run.Malformed {
    List<String> found = new ArrayList<>();
    List<Item> items = items(field);
    for (String tag : tags) {
      Item it = deciding(items, tag);
      if (it != null && it.weight > 0) {
        found.add(tag);
      }
    }
    return found;
  }

  @Override
  public List<String> extendedFiltering(List<String> ranges, List<String> tags) {
    return tags.stream().filter(tag -> ranges.stream().anyMatch(it -> extendedMatch(it, tag)))
        .toList();
  }

  private static List<String> truncations(String range) {
    List<String> found = new ArrayList<>();
    List<String> left = subtags(range);
    while (!left.isEmpty()) {
      found.add(String.join("-", left));
      do {
        left.remove(left.size() - 1);
      } while (!left.isEmpty() && left.get(left.size() - 1).length() == 1);
    }
    return found;
  }

  private static String lookedUp(List<Item> items, List<String> tags, String fallback) {
    List<Item> named = items.stream().filter(it -> !it.range.equals("*")).toList();
    List<Item> order = new ArrayList<>(named);
    order.removeIf(it -> it.weight == 0);
    order.sort(Comparator.comparingInt(it -> -it.weight));
    for (Item it : order) {
      for (String text : truncations(it.range)) {
        Item decides = deciding(named, text);
        for (String tag : tags) {
          if (lower(tag).equals(text) && (decides == null || decides.weight > 0)) {
            return tag;
          }
        }
      }
    }
    if (fallback == null || tags.stream().noneMatch(it -> lower(it).equals(lower(fallback)))) {
      return null;
    }
    Item decides = deciding(items, fallback);
    return decides == null || decides.weight > 0 ? fallback : null;
  }

  @Override
  public String lookup(String field, List<String> tags, String fallback) throws Run.Malformed {
    return lookedUp(items(field), tags, fallback);
  }

  @Override
  public String extendedLookup(List<String> ranges, List<String> tags, String fallback) {
    List<Item> items = new ArrayList<>();
    for (String range : ranges) {
      List<String> left = subtags(lower(range));
      boolean isAny = left.get(0).equals("*");
      left.removeIf("*"::equals);
      items.add(new Item(isAny ? "*" : String.join("-", left), 1000));
    }
    return lookedUp(items, tags, fallback);
  }
}

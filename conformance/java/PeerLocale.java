import java.util.ArrayList;
import java.util.IllformedLocaleException;
import java.util.List;
import java.util.Locale;

/**
 * Java's {@code Locale}. The parts of a tag are not compared, as it replaces deprecated tags. The
 * items of a field are not compared, as it adds equivalent ones. It has no default.
 */
public final class PeerLocale implements Run.Adapter {
  @Override
  public Object tag(String text) {
    try {
      // (an empty text resets the builder)
      return text.isEmpty() || new Locale.Builder().setLanguageTag(text) == null ? null : true;
    } catch (IllformedLocaleException fault) {
      return null;
    }
  }

  @Override
  public boolean basicRange(String text) {
    return extendedRange(text) && (text.equals("*") || !text.contains("*"));
  }

  @Override
  public boolean extendedRange(String text) {
    try {
      return new Locale.LanguageRange(text) != null;
    } catch (IllegalArgumentException | ArrayIndexOutOfBoundsException fault) {
      return false;
    }
  }

  private static List<Locale.LanguageRange> list(String field) throws Run.Malformed {
    try {
      return Locale.LanguageRange.parse(field);
    } catch (IllegalArgumentException | IndexOutOfBoundsException fault) {
      throw new Run.Malformed(-1);
    }
  }

  @Override
  public List<String> basicFiltering(String field, List<String> tags) throws Run.Malformed {
    return Locale.filterTags(list(field), tags);
  }

  @Override
  public List<String> extendedFiltering(List<String> ranges, List<String> tags) {
    List<Locale.LanguageRange> list = new ArrayList<>();
    for (String it : ranges) {
      list.add(new Locale.LanguageRange(it));
    }
    return Locale.filterTags(list, tags, Locale.FilteringMode.EXTENDED_FILTERING);
  }

  @Override
  public String lookup(String field, List<String> tags, String fallback) throws Run.Malformed {
    String found = Locale.lookupTag(list(field), tags);
    return found == null ? fallback : found;
  }
}

// Answers each line "TAG TAG ..<TAB>FIELD" of standard input by ICU's LocaleMatcher: with a tag as
// the line has it, or "-".
#include <unicode/localematcher.h>

#include <iostream>
#include <sstream>
#include <string>
#include <vector>

static std::string answer(const std::vector<std::string> &tags, const std::string &field) {
    UErrorCode status = U_ZERO_ERROR;
    std::vector<icu::Locale> locales;
    for (const auto &tag : tags) locales.push_back(icu::Locale::forLanguageTag(tag, status));
    icu::LocaleMatcher::Builder builder;
    builder.setSupportedLocales(locales.begin(), locales.end()).setNoDefaultLocale();
    icu::LocaleMatcher matcher = builder.build(status);
    const icu::Locale *found = matcher.getBestMatchForListString(field, status);
    if (U_FAILURE(status)) return std::string("refused: ") + u_errorName(status);
    for (size_t place = 0; found && place < tags.size(); place++) {
        if (locales[place] == *found) return tags[place];
    }
    return "-";
}

int main() {
    std::string line;
    while (std::getline(std::cin, line)) {
        size_t tab = line.find('\t');
        std::istringstream words(line.substr(0, tab));
        std::vector<std::string> tags;
        for (std::string tag; words >> tag;) tags.push_back(tag);
        std::cout << answer(tags, line.substr(tab + 1)) << '\n';
    }
}

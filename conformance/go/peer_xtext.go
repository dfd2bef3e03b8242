package main

import (
	"strings"

	"golang.org/x/text/language"
)

// x/text's `language`. A tag is well-formed also if its subtags are unknown. The parts are not
// compared, as it replaces deprecated tags. A field gives its items by weight, so it is only asked
// whether it is well-formed. The matcher always gives a tag: if it has no confidence in it, that
// counts as none.
var adapter = Adapter{
	Tag: func(text string) Answer {
		_, err := language.Raw.Parse(text)
		if _, isUnknown := err.(language.ValueError); err != nil && !isUnknown {
			return nil
		}
		return true
	},
	Field: func(text string) Answer {
		if _, _, err := language.ParseAcceptLanguage(text); err != nil {
			return Malformed(-1)
		}
		return true
	},
	Lookup: func(field string, tags []string, fallback string) string {
		ranges, _, err := language.ParseAcceptLanguage(field)
		if err != nil || len(tags) == 0 {
			return fallback
		}
		held := []language.Tag{}
		for _, it := range tags {
			tag, _ := language.Raw.Parse(it)
			held = append(held, tag)
		}
		_, at, confidence := language.NewMatcher(held).Match(ranges...)
		if confidence == language.No {
			return fallback
		}
		return strings.Clone(tags[at])
	},
}

package main

import (
	"regexp"
	"sort"
	"strconv"
	"strings"
)

// The rules of the RFCs in plain Go, as an adapter for run.go.
var adapter = Adapter{
	Tag:           plainTag,
	BasicRange:    basicRange.MatchString,
	ExtendedRange: extendedRange.MatchString,
	Field: func(text string) Answer {
		items, place := plainItems(text)
		if place >= 0 {
			return Malformed(place)
		}
		return items
	},
	BasicFiltering: func(field string, tags []string) []string {
		items, _ := plainItems(field)
		return wanted(tags, func(tag string) bool {
			it := deciding(items, tag)
			return it != nil && it.Weight > 0
		})
	},
	ExtendedFiltering: func(ranges, tags []string) []string {
		return wanted(tags, func(tag string) bool {
			for _, it := range ranges {
				if extendedMatch(it, tag) {
					return true
				}
			}
			return false
		})
	},
	Lookup: func(field string, tags []string, fallback string) string {
		items, _ := plainItems(field)
		return lookedUp(items, tags, fallback)
	},
	ExtendedLookup: func(ranges, tags []string, fallback string) string {
		items := Items{}
		for _, it := range ranges {
			subtags := wanted(strings.Split(it, "-"), func(one string) bool { return one != "*" })
			text := strings.Join(subtags, "-")
			if it[0] == '*' {
				text = "*"
			}
			items = append(items, Item{strings.ToLower(text), 1000})
		}
		return lookedUp(items, tags, fallback)
	},
}

const irregular = " en-gb-oed i-ami i-bnn i-default i-enochian i-hak i-klingon i-lux i-mingo" +
	" i-navajo i-pwn i-tao i-tay i-tsu sgn-be-fr sgn-be-nl sgn-ch-de "

var (
	basicRange    = regexp.MustCompile(`^(?:[A-Za-z]{1,8}(?:-[A-Za-z0-9]{1,8})*|\*)$`)
	extendedRange = regexp.MustCompile(`^(?:[A-Za-z]{1,8}|\*)(?:-(?:[A-Za-z0-9]{1,8}|\*))*$`)
	element       = regexp.MustCompile(`^([A-Za-z]{1,8}(?:-[A-Za-z0-9]{1,8})*|\*)` +
		`(?:[ \t]*;[ \t]*[qQ]=(0(?:\.[0-9]{0,3})?|1(?:\.0{0,3})?))?$`)
	langtag = regexp.MustCompile(`^(?:([a-z]{2,3})((?:-[a-z]{3}){0,3})|([a-z]{4,8}))(?:-([a-z]{4}))?` +
		`(?:-([a-z]{2}|[0-9]{3}))?((?:-(?:[a-z0-9]{5,8}|[0-9][a-z0-9]{3}))*)` +
		`((?:-[0-9a-wyz](?:-[a-z0-9]{2,8})+)*)(?:-x((?:-[a-z0-9]{1,8})+))?$`)
	privateUse = regexp.MustCompile(`^x((?:-[a-z0-9]{1,8})+)$`)
	extension  = regexp.MustCompile(`[0-9a-wyz](?:-[a-z0-9]{2,8})+`)
)

func wanted(texts []string, is func(string) bool) []string {
	found := []string{}
	for _, it := range texts {
		if is(it) {
			found = append(found, it)
		}
	}
	return found
}

// lower gives the letters of ASCII in lower case; strings.ToLower turns others into them.
func lower(text string) string {
	return strings.Map(func(one rune) rune {
		if 'A' <= one && one <= 'Z' {
			return one + 32
		}
		return one
	}, text)
}

func plainTag(text string) Answer {
	name, parts := lower(text), map[string]any{}
	if strings.Contains(irregular, " "+name+" ") && !strings.Contains(name, " ") {
		return map[string]any{"grandfathered": name}
	}
	put := func(part, text string) {
		if strings.HasPrefix(text, "-") {
			parts[part] = strings.Split(text[1:], "-")
		} else if text != "" {
			parts[part] = text
		}
	}
	if found := privateUse.FindStringSubmatch(name); found != nil {
		put("private", found[1])
		return parts
	}
	found := langtag.FindStringSubmatch(name)
	if found == nil {
		return nil
	}
	put("language", found[1]+found[3])
	put("extlangs", found[2])
	put("script", found[4])
	put("region", found[5])
	put("variants", found[6])
	extensions := [][]string{}
	for _, it := range extension.FindAllString(found[7], -1) {
		extensions = append(extensions, strings.Split(it, "-"))
	}
	if len(extensions) > 0 {
		parts["extensions"] = extensions
	}
	put("private", found[8])
	return parts
}

// plainItems gives the items of a field, or the place where it is malformed, else -1.
func plainItems(text string) (Items, int) {
	items, place := Items{}, 0
	for _, piece := range strings.Split(text, ",") {
		it := strings.Trim(piece, " \t")
		found := element.FindStringSubmatch(it)
		if found == nil && it != "" {
			return nil, place + strings.Index(piece, it)
		}
		if found != nil {
			weight := 1.0
			if found[2] != "" {
				weight, _ = strconv.ParseFloat(found[2], 64)
			}
			items = append(items, Item{lower(found[1]), int(weight*1000 + 0.5)})
		}
		place += len(piece) + 1
	}
	return items, -1
}

func basicMatch(one, tag string) bool {
	return one == "*" || tag == one || strings.HasPrefix(tag, one+"-")
}

// extendedMatch is RFC 4647 section 3.3.2, by its steps.
func extendedMatch(one, tag string) bool {
	sought, given := strings.Split(lower(one), "-"), strings.Split(lower(tag), "-")
	if sought[0] != "*" && sought[0] != given[0] {
		return false
	}
	to := 1
	for at := 1; at < len(sought); {
		switch {
		case sought[at] == "*":
			at++
		case to == len(given):
			return false
		case sought[at] == given[to]:
			at++
			to++
		case len(given[to]) == 1:
			return false
		default:
			to++
		}
	}
	return true
}

// deciding gives the longest range that matches, and the first of these; or nil.
func deciding(items Items, tag string) *Item {
	var best *Item
	most := -1
	for at, it := range items {
		length := strings.Count(it.Range, "-") + 1
		if it.Range == "*" {
			length = 0
		}
		if basicMatch(it.Range, lower(tag)) && length > most {
			best, most = &items[at], length
		}
	}
	return best
}

func isRefused(items Items, tag string) bool {
	it := deciding(items, tag)
	return it != nil && it.Weight == 0
}

func truncations(one string) []string {
	found, left := []string{}, strings.Split(one, "-")
	for len(left) > 0 {
		found = append(found, strings.Join(left, "-"))
		left = left[:len(left)-1]
		for len(left) > 0 && len(left[len(left)-1]) == 1 {
			left = left[:len(left)-1]
		}
	}
	return found
}

func lookedUp(items Items, tags []string, fallback string) string {
	named := Items{}
	for _, it := range items {
		if it.Range != "*" {
			named = append(named, it)
		}
	}
	order := append(Items{}, named...)
	sort.SliceStable(order, func(one, other int) bool {
		return order[one].Weight > order[other].Weight
	})
	for _, it := range order {
		for _, text := range truncations(it.Range) {
			for _, tag := range tags {
				if it.Weight > 0 && lower(tag) == text && !isRefused(named, text) {
					return tag
				}
			}
		}
	}
	isHeld := len(wanted(tags, func(tag string) bool { return lower(tag) == lower(fallback) })) > 0
	if !isHeld || isRefused(items, fallback) {
		return ""
	}
	return fallback
}

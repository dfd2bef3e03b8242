// Asks a library the vectors, and prints of each file how many answers agree, how many differ, and
// how many vectors it has no call for; then each answer that differs.
//
// usage: go run run.go plain.go VECTORS    asks the adapter of plain.go; another file that defines
// `adapter` takes its place. It needs Go's standard library alone.
package main

import (
	"encoding/json"
	"fmt"
	"os"
	"path/filepath"
	"reflect"
	"sort"
	"strings"
)

// Answer is what a library answers, as vectors have it. A field that is malformed is a Malformed.
type Answer = any

// Malformed is the place of an element in bytes from 0, or -1 if the library does not tell it.
type Malformed int

// Items are those of a field, each a range and a weight in thousandths.
type Items []Item

// Item is a range and its weight in thousandths.
type Item struct {
	Range  string
	Weight int
}

// Adapter has the calls of a library; those that it lacks are nil.
type Adapter struct {
	// The parts of a tag as a map, or nil. True is for parts and items that the library does not tell.
	Tag                       func(text string) Answer
	BasicRange, ExtendedRange func(text string) bool
	// The items of a field, or a Malformed.
	Field func(text string) Answer
	// The tags that match. A list of basic ranges comes as a field with falling weights.
	BasicFiltering    func(field string, tags []string) []string
	ExtendedFiltering func(ranges, tags []string) []string
	// The tag that is found, or "". The default is "" if there is none.
	Lookup         func(field string, tags []string, fallback string) string
	ExtendedLookup func(ranges, tags []string, fallback string) string
}

type vector struct {
	ID, Tag, Range, Default string
	Field                   *string
	Ranges, Tags            []string
	Answer                  Answer
	Admits                  []Answer
	Section                 string
}

type document struct {
	Subject string
	Vectors []vector
}

// fieldOf gives the list of a vector as a field: a list of ranges is one of falling weights.
func fieldOf(it vector) string {
	if it.Field != nil {
		return *it.Field
	}
	texts := make([]string, len(it.Ranges))
	for at, one := range it.Ranges {
		texts[at] = one
		if at > 0 {
			texts[at] += fmt.Sprintf(";q=%.3f", float64(1000-at)/1000)
		}
	}
	return strings.Join(texts, ", ")
}

// asked gives what a library answers, and whether it has a call.
func asked(subject string, it vector) (Answer, bool) {
	switch {
	case subject == "tags" && adapter.Tag != nil:
		return adapter.Tag(it.Tag), true
	case subject == "basic-ranges" && adapter.BasicRange != nil:
		return adapter.BasicRange(it.Range), true
	case subject == "extended-ranges" && adapter.ExtendedRange != nil:
		return adapter.ExtendedRange(it.Range), true
	case subject == "fields" && adapter.Field != nil:
		return adapter.Field(*it.Field), true
	case subject == "basic-filtering" && adapter.BasicFiltering != nil:
		return adapter.BasicFiltering(fieldOf(it), it.Tags), true
	case subject == "extended-filtering" && adapter.ExtendedFiltering != nil:
		return adapter.ExtendedFiltering(it.Ranges, it.Tags), true
	case subject == "lookup" && adapter.Lookup != nil:
		return found(adapter.Lookup(fieldOf(it), it.Tags, it.Default)), true
	case subject == "extended-lookup" && adapter.ExtendedLookup != nil:
		return found(adapter.ExtendedLookup(it.Ranges, it.Tags, it.Default)), true
	}
	return nil, false
}

func found(tag string) Answer {
	if tag == "" {
		return nil
	}
	return tag
}

// lowered gives an answer without case, as JSON reads it; a set of tags has no order.
func lowered(answer Answer) Answer {
	switch it := answer.(type) {
	case string:
		return strings.ToLower(it)
	case map[string]any:
		made := map[string]any{}
		for name, value := range it {
			made[name] = lowered(value)
		}
		return made
	case []any:
		made, texts := []any{}, map[string]bool{}
		for _, one := range it {
			one = lowered(one)
			made = append(made, one)
			if text, is := one.(string); is {
				texts[text] = true
			}
		}
		if len(made) > 0 && len(texts) == 0 {
			return made
		}
		set := []string{}
		for text := range texts {
			set = append(set, text)
		}
		sort.Strings(set)
		return set
	}
	return answer
}

func agrees(given, answer Answer) bool {
	members, isMap := answer.(map[string]any)
	_, isList := answer.([]any)
	place, hasPlace := members["malformed"].(float64)
	_, isRefused := members["refused"]
	if fault, is := given.(Malformed); is {
		return isRefused || hasPlace && (fault < 0 || float64(fault) == place)
	}
	if given == true && (isMap || isList) {
		return !isRefused && !hasPlace
	}
	// (as JSON, so that both have the same types)
	text, err := json.Marshal(given)
	if err != nil {
		panic(err)
	}
	var same Answer
	if err := json.Unmarshal(text, &same); err != nil {
		panic(err)
	}
	return reflect.DeepEqual(lowered(same), lowered(answer))
}

// MarshalJSON writes an item as a list.
func (it Item) MarshalJSON() ([]byte, error) {
	return json.Marshal([]any{it.Range, it.Weight})
}

func main() {
	paths, err := filepath.Glob(filepath.Join(os.Args[1], "*.json"))
	if err != nil || len(paths) == 0 {
		panic("no vectors")
	}
	differing := []string{}
	for _, path := range paths {
		text, err := os.ReadFile(path)
		if err != nil {
			panic(err)
		}
		var it document
		if err := json.Unmarshal(text, &it); err != nil {
			panic(err)
		}
		agreed, differed, left := 0, 0, 0
		for _, one := range it.Vectors {
			wanted := one.Admits
			if wanted == nil {
				wanted = []Answer{one.Answer}
			}
			given, isAsked := asked(it.Subject, one)
			isOne := false
			for _, answer := range wanted {
				isOne = isOne || isAsked && agrees(given, answer)
			}
			switch {
			case !isAsked:
				left++
			case isOne:
				agreed++
			default:
				differed++
				differing = append(differing, fmt.Sprintf("%s %q %q %q %q %q: %v, and not %v (%s)",
					one.ID, one.Tag+one.Range, fieldOf(one), one.Ranges, one.Tags, one.Default,
					given, wanted, one.Section))
			}
		}
		name := strings.TrimSuffix(filepath.Base(path), ".json")
		fmt.Printf("%s\t%d\t%d\t%d\n", name, agreed, differed, left)
	}
	for _, it := range differing {
		fmt.Println(it)
	}
	if len(differing) > 0 {
		os.Exit(1)
	}
}

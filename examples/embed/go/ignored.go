package vupresal

import (
	"bytes"
	"fmt"
	"strings"
)

// The attributes of conditions that read a field without its name.
var attributes = map[string]string{"user-agent": "useragent", "x-request-id": "id"}

// lowered is an ASCII letter in lower case, and any other byte as it is. A name has no other letters, so none of Unicode is lowered to one.
func lowered(b byte) byte {
	if 'A' <= b && b <= 'Z' {
		return b + 'a' - 'A'
	}
	return b
}

// isAmong tells whether a name is among these, which are in lower case.
func isAmong(names []string, name string) bool {
	for _, each := range names {
		if len(each) == len(name) && isSame(each, name) {
			return true
		}
	}
	return false
}

func isSame(low, name string) bool {
	for i := 0; i < len(name); i++ {
		if low[i] != lowered(name[i]) {
			return false
		}
	}
	return true
}

// ignoredOf are the names of fields in lower case; an error if one is none, or cannot be ignored.
func ignoredOf(names []string) ([]string, error) {
	var found []string
	for _, name := range names {
		low := strings.Map(func(r rune) rune {
			if r < 0x80 {
				return rune(lowered(byte(r)))
			}
			return r
		}, name)
		switch {
		case strings.HasPrefix(low, ":"):
			return nil, fmt.Errorf("vupresal: ignore: %q is no field: it is part of each request", name)
		case !isToken(low):
			return nil, fmt.Errorf("vupresal: ignore: %q is not the name of a field", name)
		case low == "host":
			return nil, fmt.Errorf("vupresal: ignore: %q cannot be ignored: a request needs its host", name)
		}
		found = append(found, low)
	}
	return found, nil
}

// isToken tells whether a text in lower case may be the name of a field (RFC 9110, section 5.6.2).
func isToken(low string) bool {
	return low != "" && strings.Trim(low, "!#$%&'*+-.^_`|~0123456789abcdefghijklmnopqrstuvwxyz") == ""
}

// textsAmong are those names that a message has as a text, with its length before it, in any case.
func textsAmong(message []byte, names []string) []string {
	low := make([]byte, len(message))
	for i, b := range message {
		low[i] = lowered(b)
	}
	hasText := func(text string) bool {
		return text != "" && len(text) < 128 && bytes.Contains(low, append([]byte{lowered(byte(len(text)))}, text...))
	}
	var found []string
	for _, name := range names {
		if hasText(name) || hasText(attributes[name]) {
			found = append(found, name)
		}
	}
	return found
}

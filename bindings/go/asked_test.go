package kapi

import (
	"os"
	"path/filepath"
	"strings"
	"testing"
)

// Questions of a folder that KAPI_ASKED names, with the decisions of `kapi audit`: 0 for a denial.
func TestAsked(t *testing.T) {
	folder := os.Getenv("KAPI_ASKED")
	if folder == "" {
		t.Skip("KAPI_ASKED names no folder")
	}
	files, err := filepath.Glob(filepath.Join(folder, "*.objects"))
	if err != nil || len(files) == 0 {
		t.Fatal("no objects in", folder, err)
	}
	for _, file := range files {
		base := strings.TrimSuffix(file, "objects")
		if got, want := decided(t, read(t, file), read(t, base+"questions")), string(read(t, base+"answers")); got != want {
			t.Errorf("%s: %s instead of %s", file, got, want)
		}
	}
}

func read(t *testing.T, name string) []byte {
	bytes, err := os.ReadFile(name)
	if err != nil {
		t.Fatal(err)
	}
	return bytes
}

func decided(t *testing.T, objects, questions []byte) string {
	policy, err := Load(objects)
	if err != nil {
		t.Fatal(err)
	}
	defer policy.Close()
	var said strings.Builder
	for _, line := range strings.Split(strings.TrimSuffix(string(questions), "\n"), "\n") {
		at := strings.Split(line, "\t")
		asked := Question{User: at[0], Namespace: at[2], Verb: at[3], Group: at[4], Resource: at[5], Subresource: at[6], Name: at[7], Path: at[8]}
		if at[1] != "" {
			asked.Groups = strings.Split(at[1], ",")
		}
		may, err := policy.May(asked)
		if err != nil {
			t.Fatal(line, err)
		}
		if may {
			said.WriteByte('1')
		} else {
			said.WriteByte('0')
		}
	}
	return said.String()
}

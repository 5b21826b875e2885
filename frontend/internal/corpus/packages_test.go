package corpus

import (
	"go/ast"
	"go/build"
	"go/importer"
	"go/token"
	"go/types"
	"path"
	"path/filepath"
	"runtime"
	"strings"
	"testing"

	"zesthull/internal/mark"
)

// TestPackages resolves the packages of Go's source, as they are built on this system without cgo, their own tests included. In
// those that go/types has no error in:
//   - the front end finds nothing, so that the verdict on every function with results is yes;
//   - the calls of panic that it takes for the built-in one are those that go/types does, though it sees one file at a time.
func TestPackages(t *testing.T) {
	if testing.Short() {
		t.Skip("takes too long for -short")
	}
	folders := packageFolders(t)
	cgo := build.Default.CgoEnabled
	defer func() { build.Default.CgoEnabled = cgo }()
	build.Default.CgoEnabled = false
	r := resolver{t: t, fset: token.NewFileSet()}
	r.importer = importer.ForCompiler(r.fset, "source", nil)
	for _, folder := range folders {
		r.resolve(folder)
	}
	r.found.compare(t, acceptedPackages)
	t.Logf("%+v", r.resolved)
	if r.Panics == 0 {
		t.Error("no panic was seen")
	}
}

// packageFolders names the folders of Go's source that have .go files in them, but for those below a testdata folder.
func packageFolders(t *testing.T) (folders []string) {
	seen := map[string]bool{}
	for _, name := range goFiles(t, "src") {
		folder := path.Dir(name)
		if !seen[folder] && !strings.Contains(name, "/testdata/") {
			seen[folder] = true
			folders = append(folders, folder)
		}
	}
	return folders
}

type resolver struct {
	t        *testing.T
	fset     *token.FileSet
	importer types.Importer
	found    differences
	resolved
}

// resolved counts what was compared.
type resolved struct {
	Packages, Files, Bodies, WithResults, Panics int
}

func (r *resolver) resolve(folder string) {
	p, err := build.ImportDir(filepath.Join(runtime.GOROOT(), folder), 0)
	if err != nil {
		return
	}
	var sources []source
	var trees []*ast.File
	for _, name := range append(p.GoFiles, p.TestGoFiles...) {
		f := read(r.t, folder+"/"+name)
		s := newSource(f, parse(r.fset, f), &r.found)
		sources, trees = append(sources, s), append(trees, s.tree.file)
	}
	uses := map[*ast.Ident]types.Object{}
	config := types.Config{Importer: r.importer, FakeImportC: true, Sizes: types.SizesFor("gc", runtime.GOARCH)}
	if _, err := config.Check(folder, r.fset, trees, &types.Info{Uses: uses}); err != nil {
		r.found.add("%s", folder)
		return
	}
	r.Packages++
	for _, s := range sources {
		r.compare(&s, uses)
	}
}

func (r *resolver) compare(s *source, uses map[*ast.Ident]types.Object) {
	r.Files++
	if !s.tree.matches(s.result) {
		s.differs("the bodies are not those of the tree")
		return
	}
	for _, f := range s.result.Findings {
		if f.Kind != mark.Refused {
			s.differs("%s", f.Message)
		}
	}
	for i, f := range s.tree.functions {
		r.Bodies++
		if f.hasResults {
			r.WithResults++
		}
		r.Panics += s.comparePanics(&s.result.Bodies[i], statements(f.body), uses)
	}
}

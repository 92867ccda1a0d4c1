"""`make dist` and `make deb`: what the tarball and the package have, that they are installed, work and go without a
trace, and what is refused. Both are made in a checkout of their own, of the programs that are tested. Some rows are in
tests/rows/dist.txt."""
import os, pathlib, re, shutil, subprocess, types
import pytest
from conftest import MADE, ROOT, Program, command, holds, read, write
from test_pages import Page

KIT = "rattle-kit-1 logic 0"
SUM = bytes.fromhex("A9 02 18 69 14 85 20 A9 20 69 00 85 21 A0 00 B1 20 8D 00 04 60 01 02 03")
needs = {name: pytest.mark.skipif(not shutil.which(name), reason=f"{name} is not installed")
         for name in ("git", "objdump", "strip", "xz", "dpkg-deb", "dpkg", "lintian", "mandoc")}
pytestmark = [needs[name] for name in ("git", "objdump", "strip", "xz")]


def run(words, here, status=0, **env):
    """Ends with this status. Gives what it printed."""
    ran = subprocess.run(words, cwd=here, env={**os.environ, **env}, stdout=subprocess.PIPE, stderr=subprocess.STDOUT,
                         stdin=subprocess.DEVNULL, timeout=300)
    said = ran.stdout.decode()
    assert ran.returncode == status, said
    return said


def files(folder):
    """All files and links of a folder, by their paths in it."""
    return sorted(str(path.relative_to(folder)) for path in pathlib.Path(folder).rglob("*")
                  if path.is_symlink() or not path.is_dir())


@pytest.fixture(scope="module")
def made(tmp_path_factory, request):
    """A checkout with what `make` leaves, its commit, the tarball that `make dist` made of it, and this unpacked."""
    here = tmp_path_factory.mktemp("dist")
    checkout, unpacked = here / "checkout", here / "unpacked"
    for name in "docs", "examples", "names", "share", "completions", "release":
        shutil.copytree(ROOT / name, checkout / name)
    for name in "Makefile", ".gitignore", "README.md", "CHANGELOG.md", "CONTRIBUTING.md":
        shutil.copy(ROOT / name, checkout)
    os.makedirs(checkout / "crates/as65/src")
    write(checkout / "crates/as65/src/main.rt", "")
    write(checkout / "crates.txt", "as65:\n")
    git = ["git", "-c", "user.name=Some One", "-c", "user.email=one@some.org"]
    for words in ["init", "-q"], ["add", "."], ["commit", "-q", "-m", "all", "--date", "2026-12-01T12:00:00Z"]:
        run([*git, *words], checkout, GIT_COMMITTER_DATE="2026-12-01T12:00:00Z", GIT_CONFIG_GLOBAL="/dev/null")
    os.makedirs(checkout / "bin/made")
    for name in MADE:
        write(checkout / "bin/made" / ("da65_cli" if name == "da65" else name), KIT + "\nproved\n")
        shutil.copy(request.getfixturevalue(name).path, checkout / "bin")
    run(["make", "dist"], checkout)
    os.mkdir(unpacked)
    version = re.search(r"(?m)^## (.*)", read(ROOT / "CHANGELOG.md").decode())[1]
    name = f"da65-{version}-linux-x86_64"
    run(["tar", "-xf", checkout / f"dist/{name}.tar.xz"], unpacked)
    yield types.SimpleNamespace(
        checkout=checkout, version=version, tarball=f"{checkout}/dist/{name}.tar.xz", root=unpacked / name,
        commit=run(["git", "rev-parse", "HEAD"], checkout).strip())
    shutil.rmtree(here)


def test_made_again(made):
    """The same bytes, with other times of the files, another umask and another time zone."""
    first = read(made.tarball)
    for path in [*(made.checkout / "docs").iterdir(), *(made.checkout / "bin").iterdir()]:
        os.utime(path)
    run(["sh", "-c", "umask 077; make dist"], made.checkout, TZ="Asia/Tokyo", LC_ALL="C")
    assert read(made.tarball) == first
    run(["sha256sum", "-c", os.path.basename(made.tarball) + ".sha256"], os.path.dirname(made.tarball))


def test_what_is_in_the_tarball(made):
    assert sorted(os.listdir(made.root / "bin")) == sorted(MADE)
    assert "FAILED" not in run(["sha256sum", "-c", "SHA256SUMS"], made.root)
    listed = {line.split("  ")[1] for line in read(made.root / "SHA256SUMS").decode().splitlines()}
    assert listed == set(files(made.root)) - {"SHA256SUMS"}
    proved = read(made.root / "PROVED").decode().splitlines()
    assert proved[:-1] == [f"da65 {made.version}", f"commit {made.commit}", f"proved with {KIT}"]
    needed = re.fullmatch(r"needs GLIBC_(2\.\d+)", proved[-1])[1]
    assert f"glibc {needed} or later" in " ".join(read(made.root / "README.md").decode().split())
    for name in MADE:
        assert "no symbols" in run(["objdump", "-t", f"bin/{name}"], made.root)
        assert os.access(made.root / "bin" / name, os.X_OK)
    for page in made.root.rglob("*.md"):
        for target in re.findall(r"\]\(([^)\s#]+)[^)]*\)", page.read_text()):
            assert "://" in target or (page.parent / target).exists(), f"{page}: {target}"


@pytest.mark.parametrize("name", ("docs/GUIDE.md", "docs/RECIPES.md"))
def test_commands_of_a_page(made, folder, monkeypatch, name):
    """They run where the tarball is unpacked, and print what the page shows."""
    shutil.copytree(made.root, "copy")
    os.chdir("copy")
    for variable, value in ("SHELL", "/bin/sh"), ("HOME", str(folder)):
        monkeypatch.setenv(variable, value)
    page = Page(name)
    page.blocks()
    assert page.ran >= 3 and page.found


def test_owners_and_times_say_nothing(made):
    shown = run(["tar", "--utc", "--full-time", "-tvf", made.tarball], "/").splitlines()
    assert {tuple(line.split()[1:2] + line.split()[3:5]) for line in shown} == {("0/0", "2026-12-01", "12:00:00")}
    assert {line[:10] for line in shown} == {"drwxr-xr-x", "-rwxr-xr-x", "-rw-r--r--"}


@pytest.mark.parametrize("spelled", ("{}/there/sub", "there/sub"))
def test_installs_what_make_installs(made, folder, spelled):
    run(["make", "-s", "install", f"DESTDIR={folder}/by_make", "PREFIX=", "PROGRAM_PREFIX="], made.checkout)
    to = spelled.format(folder)
    run([made.root / "install", to], folder)
    assert files("there/sub") == files("by_make")
    assert {path for path in files("there/sub") if os.access(f"there/sub/{path}", os.X_OK)} == {
        f"bin/{name}" for name in MADE}
    write("there/sub/bin/other", "")
    run([made.root / "install", "--remove", to], folder)
    assert files("there") == ["sub/bin/other"]
    assert not os.path.exists("there/sub/share/da65")


@pytest.mark.parametrize("words", ("", "a b", "--remove", "--remove a b"))
def test_install_wants_a_folder(made, folder, words):
    assert run([made.root / "install", *words.split()], folder, 2) == "usage: ./install [--remove] FOLDER\n"


def test_install_refuses_what_is_damaged(made, folder):
    shutil.copytree(made.root, "copy")
    write("copy/names/c64.inc", "")
    assert "names/c64.inc: FAILED" in run(["copy/install", "there"], folder, 1)
    assert not os.path.exists("there")


@pytest.mark.parametrize("beside", ("share/", "share/da65/", ""))
def test_repair_mk_finds_its_programs(made, folder, beside):
    """Those of bin/ beside it, or beside its folder share; none of the path."""
    shutil.copytree(made.root / "bin", "at/bin")
    os.makedirs("at/" + beside, exist_ok=True)
    shutil.copy(made.root / "share/repair.mk", "at/" + beside)
    os.mkdir("work")
    write("work/sum.bin", SUM)
    run(["make", "-f", f"../at/{beside}repair.mk", "IMAGE=sum.bin", "START=0x2000"], folder / "work")
    holds("work/sum.out", SUM)
    write("work/Makefile", f"IMAGE := sum.bin\ninclude {folder}/at/{beside}repair.mk\n")
    run(["make"], folder / "work")


def test_repair_mk_alone_takes_those_of_the_path(made, folder):
    os.mkdir("a folder")
    shutil.copy(made.root / "share/repair.mk", "a folder")
    write("sum.bin", SUM)
    words = ["make", "-f", "a folder/repair.mk", "IMAGE=sum.bin"]
    run(words, folder, PATH=f"{made.root}/bin:{os.environ['PATH']}")
    holds("sum.out", SUM)


def test_is_refused(made, folder, file, text, new, said):
    """Nothing is made if a file has this text, and an older or a newer time than the programs."""
    shutil.copytree(made.checkout, "copy", symlinks=True)
    shutil.rmtree("copy/dist")
    write(f"copy/{file}", text)
    os.utime(f"copy/{file}", (2e9, 2e9) if new else (1e9, 1e9))
    assert f"dist: {said}\n" in run(["make", "-s", "dist"], folder / "copy", 2)
    assert not os.path.exists("copy/dist")


@pytest.fixture(scope="module")
def package(made):
    """The package of the tarball."""
    run(["release/package", made.version], made.checkout)
    return f"{made.checkout}/dist/da65-proved_{made.version.replace('-', '~')}-1_amd64.deb"


def packaged(name):
    return {"da65": "proved-da65"}.get(name, name)


@needs["dpkg-deb"]
def test_what_is_in_the_package(made, package, folder):
    run(["dpkg-deb", "-x", package, "x"], folder)
    own, doc = "usr/share/da65", "usr/share/doc/da65-proved"
    expected = [file for name in MADE for file in (
        f"usr/bin/{packaged(name)}", f"usr/lib/da65-proved/{name}", f"usr/share/man/man1/{packaged(name)}.1.gz",
        f"usr/share/bash-completion/completions/{packaged(name)}",
        f"usr/share/zsh/vendor-completions/_{packaged(name)}")]
    expected += [f"{own}/names/{file}" for file in files(ROOT / "names")]
    expected += [f"{own}/repair.mk", "usr/share/man/man5/da65.info.5.gz"]
    assert sorted(expected) == [file for file in files("x") if not file.startswith(doc)]
    assert {"copyright", "changelog.gz", "changelog.Debian.gz", "README.md", "docs/GUIDE.md"} <= set(files(f"x/{doc}"))
    for name in MADE:
        holds(f"x/usr/lib/da65-proved/{name}", read(made.root / "bin" / name))
    needed = re.search(r"needs GLIBC_(.*)", read(made.root / "PROVED").decode())[1]
    assert f"Depends: libc6 (>= {needed})\n" in run(["dpkg-deb", "-f", package], "/")


@needs["dpkg-deb"]
def test_package_made_again(made, package):
    first = read(package)
    run(["sh", "-c", "umask 077; make deb"], made.checkout, TZ="Asia/Tokyo")
    assert read(package) == first


@needs["dpkg-deb"]
@needs["mandoc"]
def test_man_pages_of_the_package(package, folder):
    """They are well-formed, and speak of proved-da65."""
    run(["dpkg-deb", "-x", package, "x"], folder)
    for page in pathlib.Path("x/usr/share/man").rglob("*.gz"):
        text = command(["gzip", "-dc", str(page)])
        run(["mandoc", "-T", "lint", "-W", "warning", write(page.stem, text)], folder)
        assert not re.search(rb"(?m)^(\.BR? \"?)?da65( |$)|^\.TH DA65 1", text), page
    assert b"proved\\-da65 \\- disassembler" in read("proved-da65.1")


@needs["dpkg-deb"]
@needs["lintian"]
def test_lintian_finds_no_error(package):
    run(["lintian", "--allow-root", "--fail-on", "error", package], "/")


@needs["dpkg-deb"]
@needs["dpkg"]
def test_the_package_comes_and_goes(made, package, folder):
    """dpkg installs it below a folder, where it works, and removes it."""
    os.makedirs("root/var/lib/dpkg/info")
    os.makedirs("root/var/lib/dpkg/updates")
    write("root/var/lib/dpkg/status", "")
    dpkg = ["dpkg", f"--root={folder}/root", "--force-not-root", "--force-depends"]
    path = f"{os.environ['PATH']}:/usr/sbin:/sbin"
    run([*dpkg, "-i", package], folder, PATH=path)
    for name in MADE:
        Program(f"root/usr/bin/{packaged(name)}")("-V", 0, command([str(made.root / "bin" / name), "-V"]), None)
    write("sum.bin", SUM)
    mk = read("root/usr/share/da65/repair.mk").decode()
    assert "\nPROGRAMS ?= /usr/lib/da65-proved\n" in mk
    run(["make", "-f", "root/usr/share/da65/repair.mk", "PROGRAMS=root/usr/lib/da65-proved", "IMAGE=sum.bin"],
        folder)
    holds("sum.out", SUM)
    run([*dpkg, "-P", "da65-proved"], folder, PATH=path)
    assert not [file for file in files("root") if not file.startswith("var/")]

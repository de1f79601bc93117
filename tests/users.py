"""Users of the library outside of the repository: they have the package, or an installation by CMake, and find the library
by CMake, by pkg-config, by hand or by cargo. Each test is given an empty folder (tests/c)."""
import glob
import os
import re
import shutil

from commands import C, TOP, Failed, read, run, want

SHARED = ("-DBUILD_SHARED_LIBS=ON", "-DLOCKFREE_SHARED=ON")  # each asks CMake for the shared library
COMMANDS = re.compile(r"^<!-- run -->\n```\n(.*?)\n```", re.S | re.M)  # in a page


def user_of_c(folder, prefix):
    """Programs in C that find the archive by pkg-config and by CMake."""
    shutil.copy(f"{C}/examples/ten_lines.c", f"{folder}/main.c")
    found = by_pkg_config(folder, prefix, "lockfree")
    want(any(it.startswith(f"-L{prefix}") for it in found), f"{prefix} in {found}")
    run(["gcc", "-o", "user_of_c", "main.c", *found], folder)
    for program in ("./user_of_c", by_cmake(folder, prefix, "C", "main.c")):
        want(run([program], folder) == "1\n2\n3\n", f"{program} prints what it has to")
        want(not shared_library_of(program, folder), f"{program} has the archive in it")


def user_of_cpp(folder, prefix):
    """Programs in C++ that find the archive by pkg-config, and by CMake with each compiler, which say no standard."""
    shutil.copy(f"{C}/examples/ten_lines.cpp", f"{folder}/main.cpp")
    found = by_pkg_config(folder, prefix, "lockfree")
    run(["g++", "-std=c++17", "-o", "user_of_cpp", "main.cpp", *found], folder)
    compilers = [it for it in ("g++", "clang++") if shutil.which(it)]
    for program in ("./user_of_cpp", *(by_cmake(folder, prefix, "CXX", "main.cpp", it) for it in compilers)):
        want(run([program], folder) == "499500\n", f"{program} prints what it has to")
        want(not shared_library_of(program, folder), f"{program} has the archive in it")


def user_of_shared(folder, prefix):
    """Programs in C and C++ that find the shared library by pkg-config, by CMake and by hand, and load it when they run."""
    soname = "liblockfree.so.0.2"
    by_hand = [f"-I{prefix}/include", f"{prefix}/lib/liblockfree.so", "-pthread"]
    to_load = f"-Wl,-rpath,{prefix}/lib"
    for compiler, language, end, prints in (("gcc", "C", "c", "1\n2\n3\n"), ("g++", "CXX", "cpp", "499500\n")):
        source = f"main.{end}"
        shutil.copy(f"{C}/examples/ten_lines.{end}", f"{folder}/{source}")
        run([compiler, "-o", f"by_hand_{end}", source, *by_hand, to_load], folder)
        run([compiler, "-o", f"found_{end}", source, *by_pkg_config(folder, prefix, "lockfree-shared"), to_load], folder)
        made = [by_cmake(folder, prefix, language, source, compiler, setting) for setting in SHARED]
        for program in (f"./by_hand_{end}", f"./found_{end}", *made):
            want(run([program], folder) == prints, f"{program} prints what it has to")
            want(shared_library_of(program, folder) == [soname], f"{program} loads {soname}")
        os.rename(f"{prefix}/lib/{soname}", f"{prefix}/lib/away")
        try:
            run([f"./by_hand_{end}"], folder)
        except Failed as fault:
            want(soname in str(fault), f"the loader asks for {soname}: {fault}")
        else:
            want(False, "no program runs without the library that it loads")
        finally:
            os.rename(f"{prefix}/lib/away", f"{prefix}/lib/{soname}")


def by_pkg_config(folder, prefix, name):
    return run(["pkg-config", "--cflags", "--libs", name], folder, {"PKG_CONFIG_PATH": f"{prefix}/lib/pkgconfig"}).split()


def shared_library_of(program, folder):
    """The shared library of lockfree that a program loads, if it does."""
    return re.findall(r"\(NEEDED\).*\[(.*lockfree.*)\]", run(["readelf", "-dW", program], folder))


def by_cmake(folder, prefix, language, source, compiler="gcc", setting="-DBUILD_SHARED_LIBS=OFF"):
    """Builds a program whose project has one language, and finds the library by CMake; returns the program."""
    with open(f"{folder}/CMakeLists.txt", "w", encoding="utf-8") as file:
        file.write(f"cmake_minimum_required(VERSION 3.13)\nproject(user LANGUAGES {language})\n"
                   f"find_package(lockfree 0.2 REQUIRED)\nadd_executable(user {source})\ntarget_link_libraries(user lockfree::lockfree)\n")
    build = f"build-{compiler}{setting}"
    run(["cmake", "-S", ".", "-B", build, f"-DCMAKE_PREFIX_PATH={prefix}", f"-DCMAKE_{language}_COMPILER={compiler}", setting], folder)
    run(["cmake", "--build", build], folder)
    return f"{build}/user"


def user_of_rust(folder, prefix):
    """A program in Rust that has the package's crate."""
    os.makedirs(f"{folder}/user/src")
    with open(f"{folder}/user/Cargo.toml", "w", encoding="utf-8") as file:
        file.write('[package]\nname = "user"\nversion = "0.1.0"\nedition = "2021"\n[workspace]\n'
                   f'[dependencies]\nlockfree = {{ path = "{prefix}/share/lockfree/rust" }}\n')
    with open(f"{folder}/user/src/main.rs", "w", encoding="utf-8") as file:
        file.write('fn main() {\n    let stack = lockfree::Stack::new(2).unwrap();\n    let mut pass = stack.pass().unwrap();\n'
                   '    pass.push_range(["b", "a"]).unwrap();\n    println!("{:?}", pass.drain().collect::<Vec<_>>());\n}\n')
    clean = ["env", "-u", "LOCKFREE_LIB", f"CARGO_TARGET_DIR={folder}/target"]
    said = run([*clean, "cargo", "run", "-q", "--offline"], f"{folder}/user")
    want(said == '["a", "b"]\n', "the program in Rust prints what it has to")


def try_users(folder, prefix, users):
    for user in users:
        os.makedirs(f"{folder}/{user.__name__}")
        user(f"{folder}/{user.__name__}", prefix)


def install(folder, prefix, *settings):
    run(["cmake", "-S", C, "-B", f"{folder}/build", f"-DCMAKE_INSTALL_PREFIX={prefix}", *settings])
    run(["cmake", "--install", f"{folder}/build"])


def installed(folder):
    """An installation by CMake, which is moved before it is used."""
    install(folder, f"{folder}/first", "-DCMAKE_INSTALL_LIBDIR=lib")
    os.rename(f"{folder}/first", f"{folder}/installed")
    try_users(folder, f"{folder}/installed", [user_of_c, user_of_cpp, user_of_shared])


def installed_absolutely(folder):
    """An installation into folders that are given as absolute paths."""
    prefix = f"{folder}/installed"
    install(folder, prefix, f"-DCMAKE_INSTALL_LIBDIR={prefix}/lib")
    try_users(folder, prefix, [user_of_c, user_of_cpp])
    install(folder, f"{folder}/elsewhere", f"-DCMAKE_INSTALL_LIBDIR={folder}/other/lib", f"-DCMAKE_INSTALL_INCLUDEDIR={folder}/headers")
    os.makedirs(f"{folder}/again")
    try_users(f"{folder}/again", f"{folder}/other", [user_of_c, user_of_cpp])


def names_of_the_shared_library(folder):
    """The shared library gives exactly the functions of lockfree.h that are not inline, each with the library's version."""
    declared = re.findall(r"(?m)^(?:uint32_t|lockfree_answer) (lockfree_\w+)\(", read("c/lockfree.h"))
    given = run(["nm", "-D", "--defined-only", "--format=just-symbols", f"{C}/out/liblockfree.so"]).split()
    want(len(declared) >= 21 and sorted(given) == sorted(["LOCKFREE_0.2", *(f"{it}@@LOCKFREE_0.2" for it in declared)]),
         f"each of {declared} is given, and nothing else: {given}")
    wanted = run(["nm", "-D", "--undefined-only", "--format=just-symbols", f"{C}/out/liblockfree.so"]).split()
    want({it.split("@")[0] for it in wanted} <= {"malloc", "realloc", "free", "memcpy", "memmove", "memset", "memcmp"},
         f"only the C library's among {wanted}")
    sections = run(["readelf", "-dlW", f"{C}/out/liblockfree.so"])
    want("TEXTREL" not in sections and not re.search(r"GNU_STACK.*E", sections), "no code is changed by the loader, no stack is executed")


def part_of_a_project(folder):
    """A project that has the library by add_subdirectory installs what is its own, and the library if it asks for it."""
    shutil.copy(f"{C}/examples/ten_lines.cpp", f"{folder}/main.cpp")
    with open(f"{folder}/CMakeLists.txt", "w", encoding="utf-8") as file:
        file.write(f"cmake_minimum_required(VERSION 3.13)\nproject(user LANGUAGES CXX)\nadd_subdirectory({C} lockfree)\n"
                   "add_executable(user main.cpp)\ntarget_link_libraries(user lockfree::lockfree)\ninstall(TARGETS user DESTINATION bin)\n")
    for choice, whole in (([], False), (["-DLOCKFREE_INSTALL=ON"], True)):
        build, prefix = f"{folder}/build-{whole}", f"{folder}/installed-{whole}"
        run(["cmake", "-S", folder, "-B", build, f"-DCMAKE_INSTALL_PREFIX={prefix}", "-DCMAKE_INSTALL_LIBDIR=lib", *choice])
        run(["cmake", "--build", build])
        run(["cmake", "--install", build])
        files = {os.path.relpath(it, prefix) for it in glob.glob(f"{prefix}/**", recursive=True) if os.path.isfile(it)}
        library = {"lib/liblockfree.a", "lib/liblockfree.so", "include/lockfree.h"}
        want({"bin/user", *library} <= files if whole else files == {"bin/user"}, f"installed: {files}")
        want(run([f"{prefix}/bin/user"]) == "499500\n", "the program prints what it has to")
    for setting in SHARED:
        build = f"{folder}/build{setting}"
        run(["cmake", "-S", folder, "-B", build, setting])
        run(["cmake", "--build", build])
        want(run([f"{build}/user"]) == "499500\n", "the program prints what it has to")
        want(shared_library_of(f"{build}/user", folder) == ["liblockfree.so.0.2"], "the program loads the shared library")


def try_pages(folder, prefix):
    """The links of the package's pages lead to something in it, and their command lines work there."""
    run([f"{TOP}/tests/docs", "--unpacked", prefix])
    pages = f"{prefix}/share/doc/lockfree"
    blocks = [block for page in ("README.md", "docs/cpp.md") for block in COMMANDS.findall(read(f"{pages}/{page}"))]
    blocks = [block for block in blocks if "liblockfree." in block or "cmake" in block]
    want(len(blocks) >= 3, f"command lines that need the library: {blocks}")
    for block in blocks:
        run(["bash", "-euo", "pipefail", "-c", block.replace("/tmp/", f"{folder}/")], pages)
    by_hand = ["-I", f"{prefix}/include", f"{pages}/c/examples/ten_lines.c", f"{prefix}/lib/liblockfree.a", "-pthread"]
    run(["gcc", *by_hand, "-o", f"{folder}/by_hand"])
    want(run([f"{folder}/by_hand"]) == "1\n2\n3\n", "the program that is built by hand prints what it has to")


def packed(folder):
    """The package is made twice of the same bytes, and users have it elsewhere, with its pages."""
    def pack():
        package = f"{TOP}/{run([f'{C}/package']).split()[-1]}"
        with open(package, "rb") as file:
            return package, file.read()
    package, bytes_of_first = pack()
    want(pack() == (package, bytes_of_first), "two packages are of the same bytes")
    run(["sha256sum", "-c", f"{os.path.basename(package)}.sha256"], os.path.dirname(package))
    run(["tar", "-xzf", package, "-C", folder])
    prefix = f"{folder}/anywhere"
    os.rename(f"{folder}/{os.path.basename(package).removesuffix('.tar.gz')}", prefix)
    run(["sha256sum", "--quiet", "-c", "SHA256SUMS"], prefix)
    try_pages(folder, prefix)
    try_users(folder, prefix, [user_of_c, user_of_cpp, user_of_shared, user_of_rust])

# What rust/platforms builds with: Rust 1.85, the declared version, with cargo, std for ARM Linux, and the sources of std for who builds that. They are
# Debian's packages, unpacked into a folder in out/ and not installed, so that the machine's own Rust stays as it is. The folder is made once.
#
# Who reads this file has read tests/shared.sh, and sets `std_parts`.
# shellcheck disable=SC2154
packages=$out/platforms/packages
rust_root=$out/platforms/rust
std_sources=$rust_root/lib/rustlib/src/rust

# Runs a command of apt over lists of its own, which have ARM's packages and the sources too.
apt_beside() {
  "$1" -q -o Dir::State::lists="$packages/lists" -o Dir::Cache="$packages" -o Dir::Cache::archives="$packages/archives" \
    -o Dir::Etc::SourceList="$packages/sources.list" -o Dir::Etc::SourceParts=/dev/null -o Debug::NoLocking=1 -o APT::Sandbox::User= \
    -o APT::Architectures::=amd64 -o APT::Architectures::=arm64 -o Acquire::Languages=none "${@:2}"
}

# Prints the version of rustc-web that has the declared version of Rust.
find_version() {
  apt_beside apt-cache madison rustc-web | sed -n 's/^[^|]*| *\(1\.85\.[^ ]*\) .*Packages.*/\1/p' | head -n 1
}

# Downloads the lists of packages, and sets `version`.
read_lists() {
  local list
  rm -rf "$packages" && mkdir -p "$packages"/{lists,archives}/partial || return
  for list in deb deb-src; do
    echo "$list [signed-by=/usr/share/keyrings/debian-archive-keyring.gpg] http://deb.debian.org/debian bookworm main"
  done >"$packages/sources.list"
  apt_beside apt-get update && version=$(find_version) && [ -n "$version" ]
}

# Downloads the packages, and those that they need and this machine lacks.
download_packages() {
  apt_beside apt-get -y --reinstall --allow-downgrades --no-install-recommends --download-only install \
    {rustc-web,cargo-web,libstd-rust-web-dev,libstd-rust-web-1.85}="$version" || return
  (cd "$packages/archives" && apt_beside apt-get download libstd-rust-web-dev:arm64="$version")
}

# Unpacks these parts of the sources of rustc.
unpack_sources() { tar -C "$std_sources" --strip-components=1 -xJf "$packages/rustc.tar.xz" "${@/#/rustc-1.85.0-src/}"; }

# Prints the crates that std is built of, each with its version, but those for Windows alone, which aren't among Debian's sources.
crates_of_std() {
  sed -n '/^name/{s/name = "\(.*\)"/\1/;h}; /^version/{s/version = "\(.*\)"/\1/;H}; /^source/{g;s/\n/-/;p}' "$std_sources/library/Cargo.lock" |
    grep -v '^windows'
}

# Makes an empty crate in the place of windows-sys, which cargo asks for and no target here is built with.
empty_windows_sys() {
  local crate=$std_sources/vendor/windows-sys-0.59.0 sum
  sum=$(grep -A3 'name = "windows-sys"' "$std_sources/library/Cargo.lock" | sed -n 's/^checksum = "\(.*\)"/\1/p')
  mkdir -p "$crate/src" && touch "$crate/src/lib.rs" && echo "{\"files\":{},\"package\":\"$sum\"}" >"$crate/.cargo-checksum.json" &&
    printf '%s\n' '[package]' 'name = "windows-sys"' 'version = "0.59.0"' '[features]' \
      Win32_{Foundation,System_Memory,System_SystemInformation,System_Threading}' = []' >"$crate/Cargo.toml"
}

# Downloads the sources of rustc, and unpacks what std is built of. That takes as long as all else here.
add_sources() {
  local found crates
  read_lists || return
  found=$(apt_beside apt-get source --print-uris rustc-web="$version" | grep '\.orig\.tar\.xz') || return
  read -r -a found <<<"${found//\'/}"
  /usr/lib/apt/apt-helper -o APT::Sandbox::User= download-file "${found[0]}" "$packages/rustc.tar.xz" "${found[3]}" || return
  rm -rf "$rust_root/lib/rustlib/src" && mkdir -p "$std_sources" && unpack_sources library || return
  mapfile -t crates < <(crates_of_std)
  unpack_sources "${crates[@]/#/vendor/}" && empty_windows_sys && replace_links && rm -rf "$packages" && touch "$rust_root/has_sources"
}

# Puts its file in the place of each link, since `rt ci` refuses a checkout with links. A link to no file of this folder is removed.
replace_links() {
  local link file root
  root=$(readlink -f "$rust_root")
  while IFS= read -r -d '' link; do
    file=$(readlink -f "$link")
    rm "$link" || return
    [[ $file != "$root"/* || ! -f $file ]] || ln "$file" "$link" || return
  done < <(find "$root" -type l -print0)
}

# Makes the folder. What is printed is for the case that it can't be made.
make_rust_root() {
  local package
  rm -rf "$rust_root"
  read_lists && download_packages || return
  for package in "$packages"/archives/*.deb; do dpkg-deb -x "$package" "$rust_root.unpacked" || return; done
  mv "$rust_root.unpacked/usr" "$rust_root" && rm -rf "$rust_root.unpacked" && replace_links && rm -rf "$packages" && touch "$rust_root/made"
}

# Makes sure that the folder is there, or ends the script. `cargo_1_85` is to be used from then on, which is offline.
need_rust_1_85() { need_made made make_rust_root "Debian's rustc-web 1.85"; }

# The same for the sources of std, after which `cargo_and_std` finds its crates.
need_std_sources() { need_made has_sources add_sources 'the sources of std 1.85'; }

# Makes something of that folder, unless the file that says so is there.
need_made() {
  [ -f "$rust_root/$1" ] || { say "downloading $3"; "$2" >"$work/rust" 2>&1; } || {
    fail "$3 can't be had: $(tail -n 3 "$work/rust" | tr '\n' ' ')"
    finish
  }
}

# Runs cargo 1.85 with rustc 1.85.
cargo_1_85() {
  LD_LIBRARY_PATH=$rust_root/lib/x86_64-linux-gnu RUSTC=$rust_root/bin/rustc RUSTDOC=$rust_root/bin/rustdoc CARGO_NET_OFFLINE=true \
    "$rust_root/bin/cargo" "$@"
}

# The same, with std built from its sources. It needs words for nightly alone, which this variable allows. One folder has the crates of std and those
# of Cargo.lock.
cargo_and_std() {
  cp -rn "$out/crates/crates/." "$std_sources/vendor"
  RUSTC_BOOTSTRAP=1 cargo_1_85 "-Zbuild-std=$std_parts" --config 'source.crates-io.replace-with="std"' \
    --config "source.std.directory=\"$std_sources/vendor\"" "$@"
}

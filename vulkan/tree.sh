#!/bin/bash
# Sets up a tree of Debian trixie in the folder that is its argument: Mesa's software
# device, Khronos' validation layer, what builds the capture layer and the replay, and
# the programs that vulkan/applications.py captures. Needs root and debootstrap.
#
#   vulkan/tree.sh TREE [MIRROR]
#
# It can be started again: what is done is left as it is. Where something fails it says
# which step and ends with status 1; where it is called wrongly, with status 2.
set -u

readonly base_packages=g++,cmake,make,python3,ca-certificates,mesa-vulkan-drivers,libvulkan-dev,vulkan-validationlayers,vulkan-tools,nlohmann-json3-dev,glslang-tools,spirv-tools,libshaderc-dev
readonly program_packages=(
  xvfb xauth vkmark mpv gtk-4-examples libsdl3-tests glmark2-x11 vkd3d-demos ffmpeg
  gstreamer1.0-plugins-bad gstreamer1.0-plugins-base gstreamer1.0-tools
  qt6-declarative-examples fonts-dejavu-core)

fail() {
  echo "tree.sh: $*" >&2
  exit 1
}

usage() {
  echo "usage: tree.sh TREE [MIRROR]" >&2
  exit 2
}

# The mirror that this machine's own packages come from.
mirror_of_this_machine() {
  cat /etc/apt/sources.list /etc/apt/sources.list.d/* 2>/dev/null |
    grep -oE 'https?://[^ ]+/debian/?( |$)' | head -n 1 | tr -d ' '
}

make_base() {
  local tree=$1 mirror=$2
  [ -e "$tree/.framec-base" ] && return
  command -v debootstrap >/dev/null || fail "debootstrap is missing (apt-get install debootstrap)"
  debootstrap --variant=minbase --include="$base_packages" trixie "$tree" "$mirror" ||
    fail "debootstrap failed; its log is $tree/debootstrap/debootstrap.log"
  touch "$tree/.framec-base"
}

mount_in() {
  local tree=$1
  mountpoint -q "$tree/proc" || mount -t proc proc "$tree/proc" || fail "cannot mount $tree/proc"
  mountpoint -q "$tree/dev" || mount --bind /dev "$tree/dev" || fail "cannot bind /dev to $tree/dev"
}

install_programs() {
  local tree=$1
  [ -e "$tree/.ready" ] && return
  DEBIAN_FRONTEND=noninteractive chroot "$tree" \
    apt-get -y -o DPkg::Lock::Timeout=600 install --no-install-recommends "${program_packages[@]}" ||
    fail "apt-get install failed in $tree"
  touch "$tree/.ready"
}

main() {
  [ $# -ge 1 ] && [ $# -le 2 ] || usage
  [ "$(id -u)" = 0 ] || fail "has to be started by root"
  local mirror=${2:-$(mirror_of_this_machine)}
  [ -n "$mirror" ] || fail "no mirror of Debian found in /etc/apt: name one as the second argument"
  mkdir -p "$1" || fail "cannot make $1"
  local tree
  tree=$(cd "$1" && pwd)
  make_base "$tree" "$mirror"
  mount_in "$tree"
  install_programs "$tree"
  echo "ready: $tree"
}

main "$@"

# shellcheck shell=bash disable=SC2034
# What host/start and host/test share. It is read by them, and does nothing alone.
top=$(cd "$(dirname "${BASH_SOURCE[0]}")/.." && pwd) || exit 1
python=/usr/bin/python3
run_packages=(python3-fastapi python3-uvicorn python3-jinja2 python3-multipart python3-jwcrypto)
log_packages=(python3-psycopg2)
test_packages=(python3-psycopg2 python3-pytest python3-pytest-xdist python3-httpx python3-selenium chromium chromium-driver)

say() {
  echo "host: $1" >&2
}

# need PACKAGE..: installs the packages that are not there, where this user may; else it says what is missing, and fails.
need() {
  local missing=() package
  for package in "$@"; do
    [ "$(dpkg-query -W -f '${db:Status-Status}' "$package" 2>/dev/null)" = installed ] || missing+=("$package")
  done
  [ "${#missing[@]}" -eq 0 ] && return
  if ! command -v apt-get >/dev/null; then
    say "this is no Debian; what stands for these packages of Debian 12 has to be there: ${missing[*]}"
    return 1
  fi
  if [ "$(id -u)" -ne 0 ]; then
    say "packages are missing, and only root may install them: sudo apt-get install ${missing[*]}"
    return 1
  fi
  say "installing ${missing[*]}"
  local words=(-qq -o Acquire::Retries=0 -o Acquire::http::Timeout=20 -o DPkg::Lock::Timeout=120)
  if ! apt-get "${words[@]}" update >&2 || ! DEBIAN_FRONTEND=noninteractive \
    apt-get "${words[@]}" install -y --no-install-recommends "${missing[@]}" >&2; then
    say "packages could not be installed: ${missing[*]}"
    return 1
  fi
}

# Prints the engine: that of the variable LD, else the proved program, if it is built and no source is newer (as ./ld asks).
find_engine() {
  local program=$top/crates/ld_program/out/ld_program
  if [ -n "$LD" ]; then
    realpath -e "$LD" && return
    say "LD names no program: $LD"
  elif [ ! -x "$program" ]; then
    say "the engine is not built; './ld --build' in $top proves and builds it (it takes an hour or so), or LD names another one"
  elif [ -n "$(cd "$top" && find crates crates.txt \( -name '*.rt' -o -name '*.antt' -o -name crates.txt \) \
    -not -path '*/out/*' -not -path '*_tests/*' -newer "$program" -print -quit)" ]; then
    say "sources are newer than the engine; './ld --build' in $top builds it anew, or LD names another one"
  else
    echo "$program" && return
  fi
  return 1
}

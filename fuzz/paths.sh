# Sourced by the commands of this folder: the folder for what is built, and the compiler's flags.
cd "$(dirname "$0")/.."
room=$PWD/out/fuzz
mkdir -p "$room"
flags=(-std=c11 -g -O1 -Wall -Wextra -Werror -Iinclude -Ifuzz)
runtime=$(dirname "$(rt doc)")/c/liblibc_c.a

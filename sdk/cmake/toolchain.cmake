# The board as a target of CMake: cmake -DCMAKE_TOOLCHAIN_FILE=/usr/share/board/sdk/cmake/toolchain.cmake ..
#
# Flags are those of board.mk. So each library that is compiled in such a project is one for the board. These may be given
# by -D: BOARD_ORDER (big, little), BOARD_LIBC (1: with the C library of sdk/libc), CROSS (how the names of the tools
# begin). find_package(board) has the functions for programs and tests (board-config.cmake).
get_filename_component(BOARD_SDK "${CMAKE_CURRENT_LIST_DIR}/.." ABSOLUTE)
set(board_DIR "${CMAKE_CURRENT_LIST_DIR}" CACHE PATH "Where find_package(board) finds it")
set(BOARD_ORDER big CACHE STRING "The byte order: big or little")
set(BOARD_LIBC "" CACHE STRING "1: with the C library")
set(CROSS mips-linux-gnu- CACHE STRING "How the names of the tools begin")
list(APPEND CMAKE_TRY_COMPILE_PLATFORM_VARIABLES BOARD_ORDER BOARD_LIBC CROSS)

execute_process(
    COMMAND make -s --no-print-directory -f "${BOARD_SDK}/board.mk" "SDK=${BOARD_SDK}" "ORDER=${BOARD_ORDER}"
        "LIBC=${BOARD_LIBC}" "CROSS=${CROSS}" OPTIMIZE= BUILD=/nonexistent settings
    OUTPUT_VARIABLE board_settings ERROR_VARIABLE board_error RESULT_VARIABLE board_status
    OUTPUT_STRIP_TRAILING_WHITESPACE)
if(NOT board_status EQUAL 0)
    message(FATAL_ERROR "the kit of the board has no settings: ${board_error}")
endif()
string(REPLACE "\n" ";" board_settings "${board_settings}")
list(GET board_settings 1 BOARD_C_FLAGS)
list(GET board_settings 2 BOARD_ASM_FLAGS)
list(GET board_settings 3 BOARD_LINK_FLAGS)
list(GET board_settings 4 BOARD_PROGRAM)
list(GET board_settings 5 BOARD_LIBRARY)

set(CMAKE_SYSTEM_NAME Generic)
set(CMAKE_SYSTEM_PROCESSOR mips)
set(CMAKE_C_COMPILER "${CROSS}gcc")
set(CMAKE_ASM_COMPILER "${CROSS}gcc")
set(CMAKE_C_FLAGS_INIT "${BOARD_C_FLAGS}")
set(CMAKE_ASM_FLAGS_INIT "${BOARD_ASM_FLAGS}")
# Without a build type, as `make` has it; assertions stay in each.
set(CMAKE_C_FLAGS_RELEASE_INIT "-O2")
set(CMAKE_C_FLAGS_RELEASE "-O2" CACHE STRING "")
set(CMAKE_ASM_FLAGS_RELEASE "" CACHE STRING "")
if(NOT CMAKE_BUILD_TYPE)
    set(CMAKE_BUILD_TYPE Release CACHE STRING "")
endif()
# What is linked is a program of the board alone, by its script.
set(CMAKE_TRY_COMPILE_TARGET_TYPE STATIC_LIBRARY)
set(CMAKE_EXECUTABLE_SUFFIX_C .elf)
set(CMAKE_EXECUTABLE_SUFFIX_ASM .elf)
set(CMAKE_FIND_ROOT_PATH_MODE_PROGRAM NEVER)

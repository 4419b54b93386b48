# Programs for the board, and their tests, in a project that has the board's toolchain (toolchain.cmake):
#
#   project(example C ASM)
#   enable_testing()
#   find_package(board REQUIRED)
#   board_program(firmware CONFIGURATION firmware.cfg SOURCES firmware.c [LIBRARIES ..] [HANDLER_STACK 1024])
#   board_tests(firmware JOURNALS firmware.journal [STRICT] [EXPECT ..])
#
# board_program makes a target firmware, whose object file is firmware.elf, and firmware.cfg beside it, which the board has
# to take. board_tests adds a test for each journal, NAME.journal, whose console stands in NAME.console; STRICT and EXPECT
# are those of `make test`. All of them are paths from the folder of the CMakeLists.txt.
if(NOT DEFINED BOARD_C_FLAGS)
    message(FATAL_ERROR
        "board: this project has another toolchain: cmake -DCMAKE_TOOLCHAIN_FILE=${CMAKE_CURRENT_LIST_DIR}/toolchain.cmake")
endif()

function(board_kit)
    if(TARGET board_kit)
        return()
    endif()
    set(sources "${BOARD_SDK}/lib/stop.c" "${BOARD_SDK}/lib/format.c")
    if(BOARD_LIBC)
        list(APPEND sources "${BOARD_SDK}/lib/system.c")
    else()
        list(APPEND sources "${BOARD_SDK}/lib/print.c" "${BOARD_SDK}/lib/memory.c")
    endif()
    add_library(board_kit STATIC ${sources})
    if(BOARD_LIBC)
        target_link_libraries(board_kit PUBLIC "${BOARD_LIBRARY}/libc.a")
    endif()
endfunction()

function(board_program name)
    cmake_parse_arguments(PARSE_ARGV 1 its "" "CONFIGURATION;HANDLER_STACK" "SOURCES;LIBRARIES")
    if(NOT its_CONFIGURATION OR NOT its_SOURCES OR its_UNPARSED_ARGUMENTS)
        message(FATAL_ERROR "board_program(NAME CONFIGURATION NAME.cfg SOURCES .. [LIBRARIES ..] [HANDLER_STACK BYTES])")
    endif()
    if(NOT its_HANDLER_STACK)
        set(its_HANDLER_STACK 1024)
    endif()
    board_kit()
    set(out "${CMAKE_CURRENT_BINARY_DIR}")
    get_filename_component(source "${its_CONFIGURATION}" ABSOLUTE)
    separate_arguments(flags UNIX_COMMAND "${CMAKE_C_FLAGS}")
    add_custom_command(
        OUTPUT "${out}/${name}.cfg"
        BYPRODUCTS "${out}/${name}/entries.inc" "${out}/${name}/names"
        COMMAND "${BOARD_SDK}/configure" "${source}" "${out}/${name}.cfg" "${CMAKE_C_COMPILER}" ${flags} -I.
        DEPENDS "${source}" "${BOARD_SDK}/configure" "${BOARD_SDK}/lib/configure.awk" "${BOARD_SDK}/lib/names.h"
        DEPFILE "${out}/${name}/configuration.d"
        WORKING_DIRECTORY "${CMAKE_CURRENT_SOURCE_DIR}"
        VERBATIM)
    # A file of its own for each program, since what it includes is.
    configure_file("${BOARD_SDK}/lib/start.S" "${out}/${name}/start.S" COPYONLY)
    set_source_files_properties("${out}/${name}/start.S" PROPERTIES
        OBJECT_DEPENDS "${out}/${name}.cfg" COMPILE_OPTIONS "-I${out}/${name};-DHANDLER_STACK=${its_HANDLER_STACK}")
    add_executable(${name} "${out}/${name}/start.S" ${its_SOURCES} "${out}/${name}.cfg")
    target_include_directories(${name} PRIVATE "${CMAKE_CURRENT_SOURCE_DIR}")
    separate_arguments(link UNIX_COMMAND "${BOARD_LINK_FLAGS} --build-id=none")
    target_link_options(${name} PRIVATE -nostdlib -static)
    foreach(it IN LISTS link)
        target_link_options(${name} PRIVATE "SHELL:-Xlinker ${it}")
    endforeach()
    # (The kit's functions are weak: those of libraries come first.)
    target_link_libraries(${name} PRIVATE ${its_LIBRARIES} board_kit)
    set_target_properties(${name} PROPERTIES LINK_DEPENDS "${BOARD_SDK}/board.ld")
    add_custom_command(TARGET ${name} POST_BUILD
        COMMAND "${BOARD_SDK}/judge" "${BOARD_PROGRAM}" "$<TARGET_FILE:${name}>" "${out}/${name}.cfg" "${source}"
        VERBATIM)
endfunction()

function(board_tests name)
    cmake_parse_arguments(PARSE_ARGV 1 its "STRICT" "" "JOURNALS;EXPECT")
    set(words)
    if(its_STRICT)
        list(APPEND words --strict)
    endif()
    if(its_EXPECT)
        list(JOIN its_EXPECT " " expected)
        list(APPEND words --expect "${expected}")
    endif()
    foreach(journal IN LISTS its_JOURNALS)
        add_test(NAME "${name} ${journal}"
            COMMAND "${BOARD_SDK}/test" ${words} "${BOARD_PROGRAM}" "$<TARGET_FILE:${name}>"
                "${CMAKE_CURRENT_BINARY_DIR}/${name}.cfg" "${journal}"
            WORKING_DIRECTORY "${CMAKE_CURRENT_SOURCE_DIR}")
        set_tests_properties("${name} ${journal}" PROPERTIES ENVIRONMENT "CROSS=${CROSS}")
    endforeach()
endfunction()

# find_package(bsdudp) defines these targets:
#   bsdudp::static  libbsdudp.a
#   bsdudp::shared  libbsdudp.so, if it's installed
#   bsdudp::bsdudp  the shared one if BUILD_SHARED_LIBS is on and it's installed, otherwise the static one
# The components are static and shared. The files are found relative to this one, so the prefix may be moved.
get_filename_component(_bsdudp_prefix "${CMAKE_CURRENT_LIST_DIR}/../../.." ABSOLUTE)
set(_bsdudp_static_file "${_bsdudp_prefix}/lib/libbsdudp.a")
set(_bsdudp_shared_file "${_bsdudp_prefix}/lib/libbsdudp.so.0")

foreach(_bsdudp_kind static shared)
  set(bsdudp_${_bsdudp_kind}_FOUND FALSE)
  if(EXISTS "${_bsdudp_${_bsdudp_kind}_file}")
    set(bsdudp_${_bsdudp_kind}_FOUND TRUE)
    if(NOT TARGET bsdudp::${_bsdudp_kind})
      string(TOUPPER ${_bsdudp_kind} _bsdudp_word)
      add_library(bsdudp::${_bsdudp_kind} ${_bsdudp_word} IMPORTED)
      set_target_properties(bsdudp::${_bsdudp_kind} PROPERTIES
        IMPORTED_LOCATION "${_bsdudp_${_bsdudp_kind}_file}"
        INTERFACE_INCLUDE_DIRECTORIES "${_bsdudp_prefix}/include")
    endif()
  endif()
endforeach()
if(TARGET bsdudp::static)
  set_target_properties(bsdudp::static PROPERTIES IMPORTED_LINK_INTERFACE_LANGUAGES C)
endif()
if(TARGET bsdudp::shared)
  set_target_properties(bsdudp::shared PROPERTIES IMPORTED_SONAME libbsdudp.so.0)
endif()

if(NOT TARGET bsdudp::bsdudp AND (bsdudp_static_FOUND OR bsdudp_shared_FOUND))
  add_library(bsdudp::bsdudp INTERFACE IMPORTED)
  if(bsdudp_shared_FOUND AND (BUILD_SHARED_LIBS OR NOT bsdudp_static_FOUND))
    set_target_properties(bsdudp::bsdudp PROPERTIES INTERFACE_LINK_LIBRARIES bsdudp::shared)
  else()
    set_target_properties(bsdudp::bsdudp PROPERTIES INTERFACE_LINK_LIBRARIES bsdudp::static)
  endif()
endif()

if(NOT bsdudp_static_FOUND AND NOT bsdudp_shared_FOUND)
  set(bsdudp_FOUND FALSE)
  set(bsdudp_NOT_FOUND_MESSAGE "neither ${_bsdudp_static_file} nor ${_bsdudp_shared_file} is there")
endif()
foreach(_bsdudp_kind IN LISTS bsdudp_FIND_COMPONENTS)
  if(bsdudp_FIND_REQUIRED_${_bsdudp_kind} AND NOT bsdudp_${_bsdudp_kind}_FOUND)
    set(bsdudp_FOUND FALSE)
    set(bsdudp_NOT_FOUND_MESSAGE "its component ${_bsdudp_kind} isn't there: the components are static and shared")
  endif()
endforeach()
unset(_bsdudp_kind)
unset(_bsdudp_word)
unset(_bsdudp_prefix)
unset(_bsdudp_static_file)
unset(_bsdudp_shared_file)

# Beside the library that portable/core makes: find_package(bsdudp PATHS FOLDER) defines the target bsdudp::static, and
# bsdudp::bsdudp, which is the same.
if(NOT TARGET bsdudp::static)
  add_library(bsdudp::static STATIC IMPORTED)
  set_target_properties(bsdudp::static PROPERTIES
    IMPORTED_LOCATION "${CMAKE_CURRENT_LIST_DIR}/libbsdudp.a"
    IMPORTED_LINK_INTERFACE_LANGUAGES C
    INTERFACE_INCLUDE_DIRECTORIES "${CMAKE_CURRENT_LIST_DIR}")
  add_library(bsdudp::bsdudp INTERFACE IMPORTED)
  set_target_properties(bsdudp::bsdudp PROPERTIES INTERFACE_LINK_LIBRARIES bsdudp::static)
endif()

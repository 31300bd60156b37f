# `find_package(peltzivar 1.0 REQUIRED)` defines the targets peltzivar::shared and peltzivar::static. Paths are relative to
# this file, so that the tree can be moved.
if(NOT TARGET peltzivar::shared)
  get_filename_component(folder "${CMAKE_CURRENT_LIST_DIR}" REALPATH)
  add_library(peltzivar::shared SHARED IMPORTED)
  set_target_properties(peltzivar::shared PROPERTIES
    IMPORTED_LOCATION "${folder}/../../@SHARED@" INTERFACE_INCLUDE_DIRECTORIES "${folder}/@HEADERS@")
  add_library(peltzivar::static STATIC IMPORTED)
  set_target_properties(peltzivar::static PROPERTIES
    IMPORTED_LOCATION "${folder}/../../@STATIC@" INTERFACE_INCLUDE_DIRECTORIES "${folder}/@HEADERS@")
endif()

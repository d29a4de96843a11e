// The meshes that are timed.
#ifndef MESHES_H
#define MESHES_H

#include "peer.h"

enum { MESHES = 19 };

// Makes mesh NUMBER, from 0; `drop_mesh` gives its memory back.
struct mesh make_mesh(int number);
void drop_mesh(struct mesh *mesh);

#endif

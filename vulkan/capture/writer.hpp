#pragma once
class Capture;

// Writes the submission file of what was captured, and tells on stderr what it cannot say.
void write_file(Capture &capture);

//! Stand-in: chunked messages are the protocol layer's affair, and that is replaced.

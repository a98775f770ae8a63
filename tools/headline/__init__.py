"""What tools/headline-lines writes around the definitions that the headline rests on."""

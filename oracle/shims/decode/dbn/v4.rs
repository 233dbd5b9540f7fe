// STAND-IN: src/decode/dbn/v4.rs is not in the text at hand.

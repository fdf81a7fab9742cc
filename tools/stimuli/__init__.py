"""What makes a stimulus of something else: of a waveform, or of the outputs of a run."""

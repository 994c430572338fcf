data D : D where

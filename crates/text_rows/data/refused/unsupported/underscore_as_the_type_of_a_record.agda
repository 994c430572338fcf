record R : _ where

"""What scripts/e2e plays, part by part."""

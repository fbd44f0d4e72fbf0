/* lwIP's port header: lwIP's defaults are enough. */

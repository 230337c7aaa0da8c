/* SDL2's software blit. A layer with global alpha is a surface without alpha of its own, at the
 * layer's alpha, since that takes the place of each pixel's. */
#include <SDL2/SDL_surface.h>
#include <stdio.h>
#include <stdlib.h>

#include "painter.h"

struct surfaces {
    SDL_Surface *screen, *layer[MOST_LAYERS];
    int layers;
    Uint32 ground;
};

static SDL_Surface *must(SDL_Surface *surface)
{
    if (!surface) {
        fprintf(stderr, "bench: SDL2: %s\n", SDL_GetError());
        exit(1);
    }
    return surface;
}

/* Bytes in the order red, green, blue, alpha. */
static SDL_Surface *surface_of(uint8_t *pixels, uint32_t width, uint32_t height, Uint32 format)
{
    return must(SDL_CreateRGBSurfaceWithFormatFrom(pixels, (int)width, (int)height, 8 * PIXEL,
                                                   (int)(PIXEL * width), format));
}

static SDL_Surface *layer_surface(const struct scene *scene, int n)
{
    const struct layer *layer = &scene->layer[n];
    Uint32 format = layer->has_global_alpha ? SDL_PIXELFORMAT_XBGR8888 : SDL_PIXELFORMAT_ABGR8888;
    SDL_Surface *surface = surface_of(scene->pixels[n], layer->width, layer->height, format);
    SDL_SetSurfaceBlendMode(surface, SDL_BLENDMODE_BLEND);
    if (layer->has_global_alpha)
        SDL_SetSurfaceAlphaMod(surface, scene->alpha[n]);
    return surface;
}

static void *prepare(const struct scene *scene, uint8_t *output)
{
    struct surfaces *all = room(sizeof *all);
    const uint8_t *ground = scene->ground;
    all->screen = surface_of(output, scene->width, scene->height, SDL_PIXELFORMAT_ABGR8888);
    all->ground = SDL_MapRGBA(all->screen->format, ground[0], ground[1], ground[2], 255);
    all->layers = scene->layers;
    for (int n = 0; n < scene->layers; n++)
        all->layer[n] = layer_surface(scene, n);
    return all;
}

static void paint(const struct scene *scene, uint8_t *output, void *prepared)
{
    struct surfaces *all = prepared;
    (void)output;
    SDL_FillRect(all->screen, NULL, all->ground);
    for (int n = 0; n < all->layers; n++) {
        SDL_Rect to = {.x = (int)scene->layer[n].x, .y = (int)scene->layer[n].y};
        SDL_BlitSurface(all->layer[n], NULL, all->screen, &to);
    }
}

static void drop(void *prepared)
{
    struct surfaces *all = prepared;
    for (int n = 0; n < all->layers; n++)
        SDL_FreeSurface(all->layer[n]);
    SDL_FreeSurface(all->screen);
    free(all);
}

const struct painter SDL2 = {
    .name = "SDL2", .tolerance = 3, .prepare = prepare, .paint = paint, .drop = drop};
